/* In the place of main.scala beside Scala's tests: it tells how each of them goes, in which time. Words: which files. A test fails by an exception of its own,
   or of a thread that it started. */
import java.util.concurrent.ConcurrentLinkedQueue
import scala.reflect.ClassTag

object Test {
  private val thrown = new ConcurrentLinkedQueue[Throwable]

  def main(args: Array[String]) {
    Thread.setDefaultUncaughtExceptionHandler(new Thread.UncaughtExceptionHandler {
      def uncaughtException(thread: Thread, fault: Throwable) { thrown.add(fault) }
    })
    args foreach {
      case "concmap" => ConcurrentMapSpec.test()
      case "iterator" => IteratorSpec.test()
      case "lnode" => LNodeSpec.test()
      case "snapshot" => SnapshotSpec.test()
    }
  }

  def tell(name: String, body: => Any) {
    thrown.clear()
    val begin = System.nanoTime
    try body catch { case fault: Throwable => thrown.add(fault) }
    val took = (System.nanoTime - begin) / 1000000
    println(if (thrown.isEmpty) s"passes | $name | $took ms" else s"FAILS | $name | $took ms | ${thrown.peek}")
  }
}

trait Spec {
  implicit def implicitously = scala.language.implicitConversions

  implicit def reflectively = scala.language.reflectiveCalls

  implicit def named(name: String) = new {
    def in[U](body: => U) { Test.tell(name, body) }
  }

  implicit def compared(one: Any) = new {
    def shouldEqual(other: Any) = assert(one == other)
  }

  def evaluating[U](body: => U) = new {
    def shouldProduce[T <: Throwable: ClassTag]() {
      val produced = try { body; None } catch { case fault: Throwable => Some(fault.getClass) }
      assert(produced == Some(implicitly[ClassTag[T]].runtimeClass))
    }
  }
}
