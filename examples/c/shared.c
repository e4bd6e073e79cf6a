/*
 * A registry and counters that threads share. Four threads count their rounds in ten counters, and register how far they
 * have come; the main thread exports the registry meanwhile, and each export is of one moment. The map lies in eight
 * shards, so calls on keys of different ones don't wait for each other.
 *
 *     cc -Iinclude examples/c/shared.c out/c/lib/libctrie.a -pthread -o shared && ./shared
 */
#include <ctrie_shared.h>
#include <inttypes.h>
#include <pthread.h>
#include <stdio.h>
#include <stdlib.h>

enum { WORKERS = 4, ROUNDS = 10000, COUNTERS = 10, EXPORTS = 100 };

/* The keys: the counters have 0 to 9; the worker w registers the round that it begins at 100 + w, and then at 200 + w the
   one that it has done. */
enum { BEGUN = 100, DONE = 200, KEYS = COUNTERS + 2 * WORKERS };

/* So many keys of a copy are read at once. */
enum { PART = 4 };

struct worker {
    pthread_t thread;
    struct ctrie_seat *seat;
    uint64_t number;
};

static void check(uint32_t code, const char *what) {
    if (!CTRIE_REFUSED(code)) return;
    fprintf(stderr, "%s: %s\n", what, ctrie_shared_error(code));
    exit(1);
}

/* One more in a counter, which has 1 then where it had nothing; false where another thread came between. */
static bool count_once(struct ctrie_seat *seat, uint64_t counter) {
    uint64_t before;
    uint32_t code = ctrie_shared_get(seat, 0, counter, &before);
    check(code, "get");
    if (code == CTRIE_NO) {
        code = ctrie_shared_put_if_absent(seat, 0, counter, 1, NULL);
        check(code, "put_if_absent");
        return code == CTRIE_NO;
    }
    code = ctrie_shared_replace_if(seat, 0, counter, before, before + 1);
    check(code, "replace_if");
    return code == CTRIE_YES;
}

static void count(struct ctrie_seat *seat, uint64_t counter) {
    while (!count_once(seat, counter)) continue;
}

static void *work(void *argument) {
    struct worker *me = argument;
    uint64_t round;
    for (round = 1; round <= ROUNDS; round++) {
        check(ctrie_shared_put(me->seat, 0, BEGUN + me->number, round, NULL), "put");
        count(me->seat, round % COUNTERS);
        check(ctrie_shared_put(me->seat, 0, DONE + me->number, round, NULL), "put");
    }
    return NULL;
}

/* The value of a key among these pairs, or 0. */
static uint64_t value_in(const struct ctrie_pair *pairs, uint64_t many, uint64_t key) {
    uint64_t i;
    for (i = 0; i < many; i++)
        if (pairs[i].key == key) return pairs[i].value;
    return 0;
}

/* Reads a copy shard by shard, in parts of a few keys: no shard is held for more than one of these. */
static uint64_t read_copy(struct ctrie_seat *seat, uint16_t copy, struct ctrie_pair *pairs) {
    uint64_t shards, shard, many = 0, count;
    check(ctrie_shared_shards(seat, &shards), "shards");
    for (shard = 0; shard < shards; shard++) {
        struct ctrie_cursor cursor = CTRIE_START;
        do {
            check(ctrie_shared_scan(seat, copy, shard, &cursor, pairs + many, PART, &count), "scan");
            many += count;
        } while (count == PART);
    }
    return many;
}

/* Exports the registry: whether all that it shows was so at one moment, that is, whether no worker has done a round that
   it hasn't begun, and whether as many rounds were counted as were done, up to one more a worker. */
static int export_is_right(struct ctrie_seat *seat) {
    struct ctrie_pair pairs[KEYS + PART];
    uint64_t many, i, begun = 0, done = 0, counted = 0;
    uint16_t copy;
    int right = 1;
    check(ctrie_shared_freeze(seat, 0, &copy), "freeze");
    many = read_copy(seat, copy, pairs);
    check(ctrie_shared_close(seat, copy), "close");
    for (i = 0; i < WORKERS; i++) {
        begun += value_in(pairs, many, BEGUN + i);
        done += value_in(pairs, many, DONE + i);
        if (value_in(pairs, many, DONE + i) > value_in(pairs, many, BEGUN + i)) right = 0;
    }
    for (i = 0; i < COUNTERS; i++) counted += value_in(pairs, many, i);
    return right && done <= counted && counted <= begun;
}

static const char *heard(struct ctrie_seat *seat, struct ctrie_count count) {
    return ctrie_shared_hear(seat, count) == CTRIE_YES ? "made" : "not made";
}

int main(void) {
    struct ctrie_seat seats[WORKERS + 1] = {CTRIE_NO_SEAT};
    struct ctrie_seat other = CTRIE_NO_SEAT;
    struct worker workers[WORKERS];
    struct ctrie_seat *mine = &seats[WORKERS];
    struct ctrie_count last;
    uint64_t i, value, wrong = 0;

    check(ctrie_shared_new(seats, WORKERS + 1, 1024, CTRIE_WIDE, 8), "new");
    for (i = 0; i < WORKERS; i++) {
        workers[i].seat = &seats[i];
        workers[i].number = i;
        if (pthread_create(&workers[i].thread, NULL, work, &workers[i])) return 1;
    }
    for (i = 0; i < EXPORTS; i++) wrong += !export_is_right(mine);
    for (i = 0; i < WORKERS; i++)
        if (pthread_join(workers[i].thread, NULL)) return 1;
    printf("%d exports, %" PRIu64 " of them wrong\n", EXPORTS, wrong);

    for (i = 0; i < COUNTERS; i++) {
        check(ctrie_shared_get(mine, 0, i, &value), "get");
        printf("counter %" PRIu64 ": %" PRIu64 "\n", i, value);
    }
    check(ctrie_shared_put(mine, 0, 7, 250, &value), "put");
    check(ctrie_shared_last(mine, &last), "last");
    printf("before it %" PRIu64 "; known to all as call %s\n", value, heard(&seats[0], last));
    last.calls++;
    printf("and the next one: %s\n", heard(&seats[0], last));
    last.shard = 8;
    last.calls = 1;
    printf("the first one of a ninth shard: %s\n", heard(&seats[0], last));

    /* Nobody else is there now, so a try ends in a call. */
    printf("a try: %s\n", ctrie_shared_error(ctrie_shared_try_get(mine, 0, 7, &value)));
    printf("one seat more: %s\n", ctrie_shared_error(ctrie_shared_split(mine, &other)));
    for (i = 0; i <= WORKERS; i++) ctrie_shared_free(&seats[i]);
    ctrie_shared_free(mine); /* once more, where none is held */
    printf("after that: %s\n", ctrie_shared_error(ctrie_shared_put(mine, 0, 7, 1, NULL)));
    printf("a map without seats: %s\n", ctrie_shared_error(ctrie_shared_open(mine, 64, CTRIE_WIDE, 0, 1)));
    return 0;
}
