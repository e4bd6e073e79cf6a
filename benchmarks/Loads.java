// The loads of bench_map and bench_words on a map of Java's: LOAD THREADS OPERATIONS KEYS
// LOAD is mix (get, put, remove 6 : 6 : 4), get, put, insert (each key once, in ascending order), copies (the mix, and after every 1,000 calls
// of a thread a snapshot that is only read and 100 gets of it, which aren't counted as calls) or copy (a snapshot that is only read, and the
// first put after it). In two more one thread makes all operations, whose time it is, while the others go on: reading (each a snapshot and
// 1,000 gets of it; the others put and remove keys, 3 : 1) and counted (puts; the others count). It makes so many operations in each of
// eight rounds, and prints the nanoseconds an operation of the fastest one: of all threads together, as the clock on the wall has it. LOAD
// heap inserts KEYS spread keys, and prints the bytes a key of the heap after a collection, boxed keys and values among them, and the
// inserts a second.
import java.util.Arrays;
import java.util.function.Supplier;

abstract class Loads {
    static final long EVERY = 1000, READS = 100, MANY_READS = 1000;

    abstract boolean has(long key);

    abstract void put(long key, long value);

    abstract void remove(long key);

    abstract long count();

    /** The map as it is now, to be read alone. */
    abstract Loads copy();

    static long drawn(long x) {
        x ^= x << 13;
        x ^= x >>> 7;
        return x ^ (x << 17);
    }

    static long read(Loads copy, long x, long reads, int keys) {
        long seen = 0;
        for (long n = 0; n < reads; n++) {
            x = drawn(x);
            seen += copy.has(Long.remainderUnsigned(x, keys)) ? 1 : 0;
        }
        return seen;
    }

    static long mix(Loads map, long x, long key, long value) {
        int kind = (int) (x >>> 60);
        if (kind < 6) return map.has(key) ? 1 : 0;
        if (kind < 12) map.put(key, value);
        else map.remove(key);
        return 0;
    }

    static void change(Loads map, long x, long key, long value) {
        if (x >>> 60 < 12) map.put(key, value);
        else map.remove(key);
    }

    static long operate(Loads map, String load, long operations, int keys, int seed) {
        long x = 88172645463325252L + seed * 7919L, seen = 0;
        for (long n = 0; n < operations; n++) {
            x = drawn(x);
            long key = Long.remainderUnsigned(x, keys);
            switch (load) {
                case "get" -> seen += map.has(key) ? 1 : 0;
                case "put", "counted" -> map.put(key, n);
                case "insert" -> map.put(n % keys, n);
                case "copy" -> {
                    seen += map.copy().has(key) ? 1 : 0;
                    map.put(key, n);
                }
                case "reading" -> seen += read(map.copy(), x, MANY_READS, keys);
                case "copies" -> {
                    seen += mix(map, x, key, n);
                    if (n % EVERY == EVERY - 1) seen += read(map.copy(), x, READS, keys);
                }
                default -> seen += mix(map, x, key, n);
            }
        }
        return seen;
    }

    /** Whether the one thread whose operations are counted has made them. */
    static volatile boolean over;

    static long accompany(Loads map, String load, int keys, int seed) {
        long x = 88172645463325252L + seed * 7919L, seen = 0;
        for (long n = 0; !over; n++) {
            x = drawn(x);
            if (load.equals("counted")) seen += map.count();
            else change(map, x, Long.remainderUnsigned(x, keys), n);
        }
        return seen;
    }

    static boolean isOfOne(String load) {
        return load.equals("reading") || load.equals("counted");
    }

    /** The nanoseconds of a round on this map. */
    static long round(Loads map, String load, int threads, long operations, int keys, long[] seen) throws InterruptedException {
        if (!load.equals("insert")) for (long key = 0; key < keys; key++) map.put(key, key);
        Thread[] team = new Thread[threads];
        long[] ended = new long[1];
        over = false;
        long start = System.nanoTime();
        for (int i = 0; i < threads; i++) {
            int seed = i;
            team[i] = new Thread(() -> {
                if (!isOfOne(load)) seen[seed] += operate(map, load, operations / threads, keys, seed);
                else if (seed > 0) seen[seed] += accompany(map, load, keys, seed);
                else {
                    seen[seed] += operate(map, load, operations, keys, seed);
                    ended[0] = System.nanoTime();
                    over = true;
                }
            });
            team[i].start();
        }
        for (Thread thread : team) thread.join();
        return (isOfOne(load) ? ended[0] : System.nanoTime()) - start;
    }

    static long collected() {
        Runtime runtime = Runtime.getRuntime();
        for (int n = 0; n < 5; n++) System.gc();
        return runtime.totalMemory() - runtime.freeMemory();
    }

    static void weigh(String name, Supplier<Loads> made, int keys) {
        long before = collected(), start = System.nanoTime();
        Loads map = made.get();
        for (long n = 0; n < keys; n++) map.put((n + 1) * 0x9E3779B97F4A7C15L, n);
        double took = System.nanoTime() - start;
        double heap = collected() - before;
        System.out.printf("%s, %d keys: %.0f bytes a key, %.0f inserts a second%n", name, map.count(), heap / keys, 1e9 * keys / took);
    }

    static void run(String name, Supplier<Loads> made, String[] words) throws InterruptedException {
        String load = words[0];
        int threads = Integer.parseInt(words[1]), keys = Integer.parseInt(words[3]);
        if (load.equals("heap")) {
            weigh(name, made, keys);
            return;
        }
        long operations = Long.parseLong(words[2]);
        double best = Double.MAX_VALUE;
        long[] seen = new long[threads];
        for (int round = 0; round < 8; round++) best = Math.min(best, (double) round(made.get(), load, threads, operations, keys, seen) / operations);
        System.out.printf("%s, %d threads, %d keys: %.1f ns an operation (%d found)%n", load, threads, keys, best, Arrays.stream(seen).sum());
    }
}
