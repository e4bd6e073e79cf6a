// Scala's TrieMap under the loads of Loads.java: java -cp scala-library.jar:. TrieMapLoads LOAD THREADS OPERATIONS KEYS
import scala.collection.concurrent.TrieMap;

public class TrieMapLoads extends Loads {
    final TrieMap<Long, Long> map;

    TrieMapLoads(TrieMap<Long, Long> map) {
        this.map = map;
    }

    boolean has(long key) {
        return !map.get(key).isEmpty();
    }

    void put(long key, long value) {
        map.put(key, value);
    }

    void remove(long key) {
        map.remove(key);
    }

    long count() {
        return map.size();
    }

    Loads copy() {
        return new TrieMapLoads((TrieMap<Long, Long>) map.readOnlySnapshot());
    }

    public static void main(String[] words) throws InterruptedException {
        run("TrieMap", () -> new TrieMapLoads(new TrieMap<>()), words);
    }
}
