/*
 * A map that isn't ours, tested by the proved checker: keys with a lock each, used by four threads, each call recorded. The
 * history has no order; examples/histories/find_order.py looks for one. With the word `wrong` before the file's name
 * put_if_absent is wrong: it looks and puts under two holds of the lock, and another thread may come between.
 *
 *     cc examples/c/own_map.c -pthread -o own_map && ./own_map wrong run.history
 *     examples/histories/find_order.py run.history > judged.history; ./ctrie explain judged.history
 */
#include "recorder.h"
#include <pthread.h>
#include <sched.h>
#include <string.h>

enum { THREADS = 4, CALLS = 500, KEYS = 6 };

/* The map under test: a value for each key, 0 where it has none. */
static pthread_mutex_t locks[KEYS];
static uint64_t values[KEYS];
static bool wrong;

static uint64_t own_get(uint64_t key) {
    pthread_mutex_lock(&locks[key]);
    uint64_t value = values[key];
    pthread_mutex_unlock(&locks[key]);
    return value;
}

static uint64_t own_put(uint64_t key, uint64_t value) {
    pthread_mutex_lock(&locks[key]);
    uint64_t before = values[key];
    values[key] = value;
    pthread_mutex_unlock(&locks[key]);
    return before;
}

static uint64_t own_put_if_absent(uint64_t key, uint64_t value) {
    if (wrong) {
        uint64_t before = own_get(key);
        if (before) return before;
        sched_yield();
        own_put(key, value);
        return 0;
    }
    pthread_mutex_lock(&locks[key]);
    uint64_t before = values[key];
    if (!before) values[key] = value;
    pthread_mutex_unlock(&locks[key]);
    return before;
}

struct worker {
    pthread_t thread;
    struct recording *calls;
    uint64_t random;
};

static uint64_t draw(struct worker *me, uint64_t below) {
    me->random ^= me->random << 13;
    me->random ^= me->random >> 7;
    me->random ^= me->random << 17;
    return (me->random >> 11) % below;
}

static void make_call(struct worker *me) {
    uint64_t kind = draw(me, 10), key = draw(me, KEYS), value = 1 + draw(me, 9), found;
    if (kind < 4) {
        recording_begin(me->calls, "get 0 %" PRIu64, key);
        found = own_get(key);
    } else if (kind < 7) {
        recording_begin(me->calls, "put-if-absent 0 %" PRIu64 " %" PRIu64, key, value);
        found = own_put_if_absent(key, value);
    } else if (kind < 9) {
        recording_begin(me->calls, "remove 0 %" PRIu64, key);
        found = own_put(key, 0);
    } else {
        recording_begin(me->calls, "put 0 %" PRIu64 " %" PRIu64, key, value);
        found = own_put(key, value);
    }
    if (found) recording_end(me->calls, "some %" PRIu64, found);
    else recording_end(me->calls, "none");
}

static void *work(void *argument) {
    struct worker *me = argument;
    int i;
    for (i = 0; i < CALLS; i++) make_call(me);
    return NULL;
}

int main(int count, char **words) {
    struct recording *recordings[THREADS];
    struct worker workers[THREADS];
    uint64_t i;
    wrong = count > 1 && strcmp(words[1], "wrong") == 0;
    for (i = 0; i < KEYS; i++)
        if (pthread_mutex_init(&locks[i], NULL)) return 1;
    for (i = 0; i < THREADS; i++) {
        recordings[i] = recording_new(CALLS);
        workers[i] = (struct worker){.calls = recordings[i], .random = 88172645463325252 + i};
        if (pthread_create(&workers[i].thread, NULL, work, &workers[i])) return 1;
    }
    for (i = 0; i < THREADS; i++)
        if (pthread_join(workers[i].thread, NULL)) return 1;
    recording_save(count > 1 + wrong ? words[1 + wrong] : NULL, "wide", recordings, THREADS);
    printf("%d calls of %d threads recorded\n", THREADS * CALLS, THREADS);
    for (i = 0; i < THREADS; i++) recording_free(recordings[i]);
    return 0;
}
