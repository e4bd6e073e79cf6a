/* In the place of Scala 2.11's TrieMap and ParTrieMap: what its tests call of them, over a concurrent map. */
package scala.collection {

package concurrent {

import generic._
import parallel.mutable.{ ParTrieMapSplitter, ParTrieMap }
import peer.PeerMap
import peer.PeerMap._

final class TrieMap[K, V] private (map: PeerMap, @volatile private var kind: Class[_])
extends Map[K, V]
   with mutable.MapLike[K, V, TrieMap[K, V]]
   with CustomParallelizable[(K, V), ParTrieMap[K, V]]
{
  def this() = this(new PeerMap, null)

  private def number(key: K): Long = {
    if (kind eq null) kind = key.getClass
    PeerMap.numberOf(key)
  }

  private def word(value: V): Long = value.asInstanceOf[Int] & 0xffffffffL

  private def told(answer: Long): Option[V] = if (PeerMap.isYes(answer)) Some((answer >>> 5).toInt.asInstanceOf[V]) else None

  private def asked(call: Int, key: K, a: Long = 0, b: Long = 0): Long = map.call(call, number(key), a, b)

  def snapshot(): TrieMap[K, V] = new TrieMap(map.copy(false), kind)

  def readOnlySnapshot(): collection.Map[K, V] = new TrieMap(map.copy(true), kind)

  override def clear() { map.call(CLEAR, 0, 0, 0) }

  def get(key: K): Option[V] = told(asked(GET, key))

  def lookup(key: K): V = get(key).getOrElse(null.asInstanceOf[V])

  override def put(key: K, value: V): Option[V] = told(asked(PUT, key, word(value)))

  override def update(key: K, value: V) { put(key, value) }

  def +=(pair: (K, V)) = { update(pair._1, pair._2); this }

  override def remove(key: K): Option[V] = told(asked(REMOVE, key))

  def -=(key: K) = { remove(key); this }

  def putIfAbsent(key: K, value: V): Option[V] = told(asked(PUT_IF_ABSENT, key, word(value)))

  def remove(key: K, value: V): Boolean = PeerMap.isYes(asked(REMOVE_IF, key, word(value)))

  def replace(key: K, old: V, value: V): Boolean = PeerMap.isYes(asked(REPLACE_IF, key, word(old), word(value)))

  def replace(key: K, value: V): Option[V] = told(asked(REPLACE, key, word(value)))

  private def listed(pairs: Array[Long], at: Int): (K, V) =
    (PeerMap.keyOf(pairs(2 * at), kind).asInstanceOf[K], pairs(2 * at + 1).toInt.asInstanceOf[V])

  def iterator: ParTrieMapSplitter[K, V] = {
    val pairs = map.pairs()
    new ParTrieMapSplitter(listed(pairs, _), 0, pairs.length / 2)
  }

  override def size: Int = map.count()

  override def empty: TrieMap[K, V] = new TrieMap

  override def seq = this

  override def par = new ParTrieMap(this)

  protected[this] override def parCombiner = new ParTrieMap[K, V]
}

}

package parallel.mutable {

import concurrent.TrieMap
import generic._
import parallel.{ Combiner, IterableSplitter }

/** The pairs with these numbers. */
final class ParTrieMapSplitter[K, V](pair: Int => (K, V), private var at: Int, end: Int) extends IterableSplitter[(K, V)] {
  def hasNext = at < end

  def next() = {
    if (!hasNext) throw new NoSuchElementException
    at += 1
    pair(at - 1)
  }

  def remaining = end - at

  def dup = new ParTrieMapSplitter(pair, at, end)

  def split = if (remaining < 2) Seq(this) else {
    val middle = at + remaining / 2
    Seq(new ParTrieMapSplitter(pair, at, middle), new ParTrieMapSplitter(pair, middle, end))
  }
}

final class ParTrieMap[K, V](map: TrieMap[K, V])
extends ParMap[K, V]
   with GenericParMapTemplate[K, V, ParTrieMap]
   with ParMapLike[K, V, ParTrieMap[K, V], TrieMap[K, V]]
   with Combiner[(K, V), ParTrieMap[K, V]]
{
  def this() = this(new TrieMap[K, V])

  override def mapCompanion: GenericParMapCompanion[ParTrieMap] = ParTrieMap

  override def empty = new ParTrieMap[K, V]

  protected[this] override def newCombiner = new ParTrieMap[K, V]

  override def seq = map

  def splitter: ParTrieMapSplitter[K, V] = map.iterator

  def get(key: K) = map.get(key)

  def put(key: K, value: V) = map.put(key, value)

  def update(key: K, value: V) { map.update(key, value) }

  def remove(key: K) = map.remove(key)

  def +=(pair: (K, V)) = { map += pair; this }

  def -=(key: K) = { map -= key; this }

  override def clear() { map.clear() }

  override def size = map.size

  def result = this

  override def canBeShared = true

  def combine[N <: (K, V), To >: ParTrieMap[K, V]](other: Combiner[N, To]): Combiner[N, To] =
    if (this eq other) this else throw new UnsupportedOperationException
}

object ParTrieMap extends ParMapFactory[ParTrieMap] {
  def empty[K, V] = new ParTrieMap[K, V]

  def newCombiner[K, V]: Combiner[(K, V), ParTrieMap[K, V]] = new ParTrieMap[K, V]

  implicit def canBuildFrom[K, V]: CanCombineFrom[Coll, (K, V), ParTrieMap[K, V]] = new CanCombineFromMap[K, V]
}

}

}
