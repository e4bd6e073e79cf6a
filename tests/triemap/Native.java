package peer;

/** The calls of bridge.c. */
final class Native {
    static {
        System.load(System.getProperty("peer.library"));
    }

    static native long open(int keys, int hash, int seats);

    static native void free(long map);

    static native long call(long map, int kind, int handle, long key, long a, long b);

    static native long[] entries(long map, int handle);
}
