/*
 * Threads of a C program, recorded so that the proved checker judges what they were told. Four threads make calls of
 * eleven kinds on a map that they share; as it lies in one shard, ctrie_shared_last tells each call's place in the order
 * of all, so the history has an order. With a word it is written into the file of that name.
 *
 *     cc -Iinclude examples/c/recorded.c out/c/lib/libctrie.a -pthread -o recorded && ./recorded run.history
 *     ./ctrie check run.history
 */
#include "recorder.h"
#include <ctrie_shared.h>
#include <pthread.h>

enum { THREADS = 4, CALLS = 5000, KEYS = 12, VALUES = 5 };

struct worker {
    pthread_t thread;
    struct ctrie_seat *seat;
    struct recording *calls;
    uint64_t random;
    uint16_t copy; /* the handle of its frozen copy, or 0 */
};

static uint64_t draw(struct worker *me, uint64_t below) {
    me->random ^= me->random << 13;
    me->random ^= me->random >> 7;
    me->random ^= me->random << 17;
    return (me->random >> 11) % below;
}

static void check(uint32_t code) {
    if (!CTRIE_REFUSED(code)) return;
    fprintf(stderr, "refused: %s\n", ctrie_shared_error(code));
    exit(1);
}

static void end_with_value(struct worker *me, uint32_t code, uint64_t value) {
    if (code == CTRIE_YES) recording_end(me->calls, "some %" PRIu64, value);
    else recording_end(me->calls, "none");
    check(code);
}

static void end_with_truth(struct worker *me, uint32_t code) {
    recording_end(me->calls, code == CTRIE_YES ? "true" : "false");
    check(code);
}

static void get(struct worker *me, uint16_t handle, uint64_t key) {
    uint64_t value = 0;
    recording_begin(me->calls, "get %u %" PRIu64, handle, key);
    uint32_t code = ctrie_shared_get(me->seat, handle, key, &value);
    end_with_value(me, code, value);
}

static void remove_key(struct worker *me, uint64_t key) {
    uint64_t before = 0;
    recording_begin(me->calls, "remove 0 %" PRIu64, key);
    uint32_t code = ctrie_shared_remove(me->seat, 0, key, &before);
    end_with_value(me, code, before);
}

typedef uint32_t put_call(struct ctrie_seat *, uint16_t, uint64_t, uint64_t, uint64_t *);

static void put_by(struct worker *me, const char *name, put_call *put, uint64_t key, uint64_t value) {
    uint64_t before = 0;
    recording_begin(me->calls, "%s 0 %" PRIu64 " %" PRIu64, name, key, value);
    uint32_t code = put(me->seat, 0, key, value, &before);
    end_with_value(me, code, before);
}

static void replace_if(struct worker *me, uint64_t key, uint64_t before, uint64_t value) {
    recording_begin(me->calls, "replace-if 0 %" PRIu64 " %" PRIu64 " %" PRIu64, key, before, value);
    end_with_truth(me, ctrie_shared_replace_if(me->seat, 0, key, before, value));
}

static void remove_if(struct worker *me, uint64_t key, uint64_t value) {
    recording_begin(me->calls, "remove-if 0 %" PRIu64 " %" PRIu64, key, value);
    end_with_truth(me, ctrie_shared_remove_if(me->seat, 0, key, value));
}

/* The handle that a freeze opens is known at its end alone, and stands in its begin. */
static void freeze(struct worker *me) {
    struct recorded *last = &me->calls->calls[me->calls->count];
    recording_begin(me->calls, "freeze 0 as 0");
    uint32_t code = ctrie_shared_freeze(me->seat, 0, &me->copy);
    recording_end(me->calls, "handle %u", me->copy);
    check(code);
    snprintf(last->call, sizeof last->call, "freeze 0 as %u", me->copy);
}

static void close_copy(struct worker *me) {
    recording_begin(me->calls, "close %u", me->copy);
    uint32_t code = ctrie_shared_close(me->seat, me->copy);
    recording_end(me->calls, "closed");
    check(code);
    me->copy = 0;
}

static void clear(struct worker *me) {
    recording_begin(me->calls, "clear 0");
    uint32_t code = ctrie_shared_clear(me->seat, 0);
    recording_end(me->calls, "cleared");
    check(code);
}

static void make_call(struct worker *me) {
    uint64_t kind = draw(me, 100), key = draw(me, KEYS), value = draw(me, VALUES);
    if (kind < 30) get(me, 0, key);
    else if (kind < 40) get(me, me->copy, key);
    else if (kind < 55) put_by(me, "put", ctrie_shared_put, key, value);
    else if (kind < 65) put_by(me, "put-if-absent", ctrie_shared_put_if_absent, key, value);
    else if (kind < 70) put_by(me, "replace", ctrie_shared_replace, key, value);
    else if (kind < 78) replace_if(me, key, value, draw(me, VALUES));
    else if (kind < 88) remove_key(me, key);
    else if (kind < 94) remove_if(me, key, value);
    else if (kind < 99) me->copy ? close_copy(me) : freeze(me);
    else clear(me);
}

static void *work(void *argument) {
    struct worker *me = argument;
    struct ctrie_count last;
    int i;
    for (i = 0; i < CALLS; i++) {
        make_call(me);
        check(ctrie_shared_last(me->seat, &last));
        recording_number(me->calls, last.calls);
    }
    return NULL;
}

int main(int count, char **words) {
    struct ctrie_seat seats[THREADS] = {CTRIE_NO_SEAT};
    struct recording *recordings[THREADS];
    struct worker workers[THREADS];
    uint64_t i;
    check(ctrie_shared_new(seats, THREADS, 65536, CTRIE_WIDE, 1));
    for (i = 0; i < THREADS; i++) {
        recordings[i] = recording_new(CALLS);
        workers[i] = (struct worker){.seat = &seats[i], .calls = recordings[i], .random = 88172645463325252 + i};
        if (pthread_create(&workers[i].thread, NULL, work, &workers[i])) return 1;
    }
    for (i = 0; i < THREADS; i++)
        if (pthread_join(workers[i].thread, NULL)) return 1;
    recording_save(count > 1 ? words[1] : NULL, "wide", recordings, THREADS);
    printf("%d calls of %d threads recorded\n", THREADS * CALLS, THREADS);
    for (i = 0; i < THREADS; i++) {
        recording_free(recordings[i]);
        ctrie_shared_free(&seats[i]);
    }
    return 0;
}
