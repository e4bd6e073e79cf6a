package peer;

import java.lang.ref.Cleaner;
import java.lang.ref.Reference;
import java.lang.reflect.InvocationTargetException;
import java.util.concurrent.atomic.AtomicInteger;

/**
 * A handle of a concurrent map, which is closed once it is garbage, as TrieMap's snapshots need no closing. Where 256 handles are open, or each seat has
 * found no slot, garbage is collected and the call made again, up to 40 times.
 */
public final class PeerMap {
    public static final int GET = 0, PUT = 1, PUT_IF_ABSENT = 2, REPLACE = 3, REPLACE_IF = 4, REMOVE = 5, REMOVE_IF = 6, COUNT = 7, CLEAR = 8, SNAPSHOT = 9,
            FREEZE = 10, CLOSE = 11;
    private static final int YES = 1, HANDLES_FULL = 4, FULL = 6, BUSY = 14, TRIES = 40, MOST_LIVE = 3;
    private static final int KEYS = Integer.getInteger("peer.keys", 2_000_000), SEATS = Integer.getInteger("peer.seats", 32);
    /** The hash that takes the low half of a key. */
    private static final int LOW = 0;
    private static final Cleaner CLEANER = Cleaner.create();

    /** A refusal, by its code. */
    public static final class Refused extends RuntimeException {
        Refused(int code) {
            super(code == FULL ? "FULL" : code == 5 ? "CROWDED" : "code " + code);
        }
    }

    /** A map with all its handles. Where there are some already, garbage is collected first, since it has memory that Java doesn't count. */
    private static final class Shared {
        static final AtomicInteger LIVE = new AtomicInteger();
        final long map;

        Shared() {
            if (LIVE.get() >= MOST_LIVE) collect();
            long made = Native.open(KEYS, LOW, SEATS);
            if (-32 < made && made < 0) throw new Refused((int) -made);
            map = made;
            LIVE.incrementAndGet();
            CLEANER.register(this, () -> {
                Native.free(made);
                LIVE.decrementAndGet();
            });
        }
    }

    private final Shared shared;
    private final int handle;
    private final Cleaner.Cleanable closing;
    public final boolean isReadOnly;

    private PeerMap(Shared shared, int handle, boolean isReadOnly) {
        this.shared = shared;
        this.handle = handle;
        this.isReadOnly = isReadOnly;
        closing = handle == 0 ? null : CLEANER.register(this, () -> {
            while ((Native.call(shared.map, CLOSE, handle, 0, 0, 0) & 31) == BUSY) Thread.yield();
        });
    }

    public PeerMap() {
        this(new Shared(), 0, false);
    }

    /** Returns what a call tells, times 32, and its code. */
    public long call(int kind, long key, long a, long b) {
        for (int n = 0;; n++) {
            long told = Native.call(shared.map, kind, handle, key, a, b);
            Reference.reachabilityFence(this);
            int code = (int) told & 31;
            if (code <= YES) return told;
            if (code != HANDLES_FULL && code != FULL || n == TRIES) throw new Refused(code);
            collect();
        }
    }

    private static void collect() {
        System.gc();
        try {
            Thread.sleep(20);
        } catch (InterruptedException interrupted) {
            Thread.currentThread().interrupt();
        }
    }

    public static boolean isYes(long told) {
        return (told & 31) == YES;
    }

    public PeerMap copy(boolean isReadOnly) {
        if (isReadOnly && this.isReadOnly) return this;
        return new PeerMap(shared, (int) (call(isReadOnly ? FREEZE : SNAPSHOT, 0, 0, 0) >>> 5), isReadOnly);
    }

    private void close() {
        closing.clean();
    }

    /** Returns how many keys there are, at one moment. */
    public int count() {
        PeerMap copy = copy(true);
        int count = (int) (copy.call(COUNT, 0, 0, 0) >>> 5);
        if (copy != this) copy.close();
        return count;
    }

    /** Returns the keys of one moment, each with its value after it. */
    public long[] pairs() {
        PeerMap copy = copy(true);
        long[] pairs = Native.entries(shared.map, copy.handle);
        if (copy != this) copy.close();
        Reference.reachabilityFence(this);
        if (pairs == null) throw new OutOfMemoryError();
        return pairs;
    }

    /**
     * Returns a key's number: its hash in the low half, so that keys have one hash where they have one in TrieMap, and what tells it from others in the high
     * half. That is its method `i`; an Integer is a number itself.
     */
    public static long numberOf(Object key) {
        if (key instanceof Integer) return (Integer) key & 0xffffffffL;
        try {
            return (long) (int) key.getClass().getMethod("i").invoke(key) << 32 | key.hashCode() & 0xffffffffL;
        } catch (NoSuchMethodException | IllegalAccessException | InvocationTargetException fault) {
            throw new IllegalArgumentException(fault);
        }
    }

    /** Returns the key of this number, of the class that another one has. */
    public static Object keyOf(long number, Class<?> kind) {
        if (kind == Integer.class) return (int) number;
        try {
            return kind.getConstructor(int.class).newInstance((int) (number >>> 32));
        } catch (ReflectiveOperationException fault) {
            throw new IllegalArgumentException(fault);
        }
    }
}
