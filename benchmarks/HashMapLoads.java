// Java's ConcurrentHashMap under those of the loads of Loads.java that want no copy: java HashMapLoads LOAD THREADS OPERATIONS KEYS
import java.util.concurrent.ConcurrentHashMap;

public class HashMapLoads extends Loads {
    final ConcurrentHashMap<Long, Long> map = new ConcurrentHashMap<>();

    boolean has(long key) {
        return map.get(key) != null;
    }

    void put(long key, long value) {
        map.put(key, value);
    }

    void remove(long key) {
        map.remove(key);
    }

    long count() {
        return map.mappingCount();
    }

    Loads copy() {
        throw new UnsupportedOperationException("it has no copies");
    }

    public static void main(String[] words) throws InterruptedException {
        run("ConcurrentHashMap", HashMapLoads::new, words);
    }
}
