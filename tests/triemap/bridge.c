/*
 * A concurrent map for the class peer.Native of Java. Any number of threads call it: a call takes a seat of a pool, and gives it back. Each seat keeps
 * some slots for its next calls, so a call that is FULL is made by each other seat too.
 */
#include <ctrie_concurrent.h>
#include <jni.h>
#include <sched.h>
#include <stdatomic.h>
#include <stdlib.h>

struct place {
    _Alignas(128) atomic_int is_taken;
    struct ctrie_concurrent_seat seat;
};

struct pool {
    unsigned seats;
    struct place *places;
};

/* As peer.PeerMap numbers them. */
enum call { GET, PUT, PUT_IF_ABSENT, REPLACE, REPLACE_IF, REMOVE, REMOVE_IF, COUNT, CLEAR, SNAPSHOT, FREEZE, CLOSE };

/* Takes this seat, counted from the thread's first, or the next one that is free. */
static struct place *taken(struct pool *pool, unsigned at) {
    static atomic_uint threads;
    static _Thread_local unsigned first;
    unsigned tries;
    if (!first) first = 1 + atomic_fetch_add(&threads, 1);
    for (tries = 1;; tries++, at++) {
        struct place *it = &pool->places[(first + at) % pool->seats];
        int is_taken = 0;
        if (atomic_compare_exchange_strong(&it->is_taken, &is_taken, 1)) return it;
        if (tries % pool->seats == 0) sched_yield();
    }
}

static void give_back(struct place *it) {
    atomic_store(&it->is_taken, 0);
}

static uint32_t called(struct ctrie_concurrent_seat *seat, int kind, uint16_t handle, uint64_t key, uint64_t a, uint64_t b, uint64_t *told) {
    uint16_t copy = 0;
    uint32_t code = CTRIE_NO_MAP;
    switch ((enum call)kind) {
    case GET: return ctrie_concurrent_get(seat, handle, key, told);
    case PUT: return ctrie_concurrent_put(seat, handle, key, a, told);
    case PUT_IF_ABSENT: return ctrie_concurrent_put_if_absent(seat, handle, key, a, told);
    case REPLACE: return ctrie_concurrent_replace(seat, handle, key, a, told);
    case REPLACE_IF: return ctrie_concurrent_replace_if(seat, handle, key, a, b);
    case REMOVE: return ctrie_concurrent_remove(seat, handle, key, told);
    case REMOVE_IF: return ctrie_concurrent_remove_if(seat, handle, key, a);
    case COUNT: return ctrie_concurrent_count(seat, handle, told);
    case CLEAR: return ctrie_concurrent_clear(seat, handle);
    case SNAPSHOT: code = ctrie_concurrent_snapshot(seat, handle, &copy); break;
    case FREEZE: code = ctrie_concurrent_freeze(seat, handle, &copy); break;
    case CLOSE: return ctrie_concurrent_close(seat, handle);
    }
    *told = copy;
    return code;
}

/* Returns the pool of a new map, or a code times -1. */
JNIEXPORT jlong JNICALL Java_peer_Native_open(JNIEnv *env, jclass c, jint keys, jint hash, jint seats) {
    struct ctrie_concurrent_seat *made = calloc((size_t)seats, sizeof *made);
    struct pool *pool = malloc(sizeof *pool);
    struct place *places = aligned_alloc(128, (size_t)seats * sizeof *places);
    uint32_t code = made && pool && places ? ctrie_concurrent_new(made, (size_t)seats, (uint32_t)keys, (uint32_t)hash) : CTRIE_MEMORY;
    int at;
    (void)env, (void)c;
    if (code == CTRIE_DONE) {
        for (at = 0; at < seats; at++) {
            atomic_init(&places[at].is_taken, 0);
            places[at].seat = made[at];
        }
        *pool = (struct pool){(unsigned)seats, places};
    } else {
        free(pool);
        free(places);
    }
    free(made);
    return code == CTRIE_DONE ? (jlong)(intptr_t)pool : -(jlong)code;
}

JNIEXPORT void JNICALL Java_peer_Native_free(JNIEnv *env, jclass c, jlong map) {
    struct pool *pool = (struct pool *)(intptr_t)map;
    unsigned at;
    (void)env, (void)c;
    for (at = 0; at < pool->seats; at++) ctrie_concurrent_free(&pool->places[at].seat);
    free(pool->places);
    free(pool);
}

/* Returns what the call tells, times 32, and its code. */
JNIEXPORT jlong JNICALL Java_peer_Native_call(JNIEnv *env, jclass c, jlong map, jint kind, jint handle, jlong key, jlong a, jlong b) {
    struct pool *pool = (struct pool *)(intptr_t)map;
    uint32_t code = CTRIE_FULL;
    uint64_t told = 0;
    unsigned at;
    (void)env, (void)c;
    for (at = 0; code == CTRIE_FULL && at < pool->seats; at++) {
        struct place *it = taken(pool, at);
        code = called(&it->seat, kind, (uint16_t)handle, (uint64_t)key, (uint64_t)a, (uint64_t)b, &told);
        give_back(it);
    }
    return (jlong)(told << 5 | code);
}

/* Returns the keys of a read-only copy, each with its value after it; null where that is refused. */
JNIEXPORT jlongArray JNICALL Java_peer_Native_entries(JNIEnv *env, jclass c, jlong map, jint handle) {
    struct place *it = taken((struct pool *)(intptr_t)map, 0);
    struct ctrie_pair *pairs = NULL;
    jlongArray made = NULL;
    uint64_t count = 0;
    uint32_t code = ctrie_concurrent_count(&it->seat, (uint16_t)handle, &count);
    (void)c;
    if (code == CTRIE_DONE && (pairs = malloc((count + 1) * sizeof *pairs)))
        code = ctrie_concurrent_entries(&it->seat, (uint16_t)handle, pairs, count, &count);
    give_back(it);
    if (code == CTRIE_DONE && pairs && (made = (*env)->NewLongArray(env, (jsize)(2 * count))))
        (*env)->SetLongArrayRegion(env, made, 0, (jsize)(2 * count), (jlong *)pairs);
    free(pairs);
    return made;
}
