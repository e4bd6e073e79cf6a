/*
 * Threads share a map with no lock, while another one exports it. Each worker counts rounds under two keys of its own, the first
 * of them always first; takes what tasks it can, by ctrie_concurrent_remove_if, which answers YES to one alone for each; and adds
 * to a counter of all, by a get and ctrie_concurrent_replace_if. Meanwhile the map is frozen again and again: each copy is of one
 * moment, so it shows each worker's two keys in one round, or the first of them one round further. In the end no count is lost,
 * and each task is done once.
 *
 *     cc -Iinclude examples/c/concurrent.c out/c/lib/libctrie.a -pthread -o concurrent && ./concurrent
 */
#include <ctrie_concurrent.h>
#include <inttypes.h>
#include <pthread.h>
#include <stdio.h>
#include <stdlib.h>

enum { WORKERS = 4, ROUNDS = 500, TASKS = 300, EXPORTS = 20, COUNTER = 1000, FIRST_TASK = 2000, ROOM = 400 };

struct worker {
    pthread_t thread;
    struct ctrie_concurrent_seat *seat;
    uint64_t number, tasks;
};

static void check(uint32_t code, const char *what) {
    if (!CTRIE_REFUSED(code)) return;
    fprintf(stderr, "%s: %s\n", what, ctrie_concurrent_error(code));
    exit(1);
}

static void add_one(struct ctrie_concurrent_seat *seat, uint64_t key) {
    uint64_t value;
    uint32_t code;
    do {
        check(ctrie_concurrent_get(seat, 0, key, &value), "get");
        code = ctrie_concurrent_replace_if(seat, 0, key, value, value + 1);
        check(code, "replace_if");
    } while (code == CTRIE_NO);
}

static void *work(void *argument) {
    struct worker *me = argument;
    uint64_t round, task;
    uint32_t code;
    for (round = 1; round <= ROUNDS; round++) {
        check(ctrie_concurrent_put(me->seat, 0, 2 * me->number, round, NULL), "put");
        check(ctrie_concurrent_put(me->seat, 0, 2 * me->number + 1, round, NULL), "put");
        add_one(me->seat, COUNTER);
    }
    for (task = FIRST_TASK; task < FIRST_TASK + TASKS; task++) {
        code = ctrie_concurrent_remove_if(me->seat, 0, task, 1);
        check(code, "remove_if");
        me->tasks += code == CTRIE_YES;
    }
    return NULL;
}

/* Whether what is exported is of one moment. */
static bool is_of_one_moment(struct ctrie_concurrent_seat *seat) {
    static struct ctrie_pair pairs[ROOM];
    uint64_t values[2 * WORKERS] = {0}, count, counted, i;
    uint16_t copy;
    bool is = true;
    check(ctrie_concurrent_freeze(seat, 0, &copy), "freeze");
    check(ctrie_concurrent_entries(seat, copy, pairs, ROOM, &count), "entries");
    check(ctrie_concurrent_count(seat, copy, &counted), "count");
    check(ctrie_concurrent_close(seat, copy), "close");
    for (i = 0; i < count; i++)
        if (pairs[i].key < 2 * WORKERS) values[pairs[i].key] = pairs[i].value;
    for (i = 0; i < WORKERS; i++) is = is && values[2 * i] - values[2 * i + 1] <= 1;
    return is && count == counted;
}

static void print_value(struct ctrie_concurrent_seat *seat, const char *name, uint64_t key) {
    uint64_t value = 0;
    check(ctrie_concurrent_get(seat, 0, key, &value), "get");
    printf("%s: %" PRIu64 "\n", name, value);
}

int main(void) {
    struct ctrie_concurrent_seat seats[WORKERS + 1] = {CTRIE_NO_SEAT};
    struct ctrie_concurrent_seat *mine = &seats[WORKERS];
    struct worker workers[WORKERS];
    uint64_t i, count, tasks = 0, of_one_moment = 0;

    check(ctrie_concurrent_new(seats, WORKERS + 1, 20000, CTRIE_WIDE), "new");
    check(ctrie_concurrent_put(mine, 0, COUNTER, 0, NULL), "put");
    for (i = 0; i < TASKS; i++) check(ctrie_concurrent_put(mine, 0, FIRST_TASK + i, 1, NULL), "put");
    for (i = 0; i < WORKERS; i++) {
        workers[i].seat = &seats[i];
        workers[i].number = i;
        workers[i].tasks = 0;
        if (pthread_create(&workers[i].thread, NULL, work, &workers[i])) exit(1);
    }
    for (i = 0; i < EXPORTS; i++) of_one_moment += is_of_one_moment(mine);
    for (i = 0; i < WORKERS; i++) {
        if (pthread_join(workers[i].thread, NULL)) exit(1);
        tasks += workers[i].tasks;
    }
    printf("of one moment: %" PRIu64 " of %d exports\n", of_one_moment, EXPORTS);
    printf("done once: %" PRIu64 " of %d tasks\n", tasks, TASKS);
    print_value(mine, "counted", COUNTER);
    print_value(mine, "the last round of the first worker", 0);
    printf("count of a map that changes: %s\n", ctrie_concurrent_error(ctrie_concurrent_count(mine, 0, &count)));
    printf("a task again: %s\n", ctrie_concurrent_contains(mine, 0, FIRST_TASK) == CTRIE_YES ? "yes" : "no");
    for (i = 0; i <= WORKERS; i++) ctrie_concurrent_free(&seats[i]);
    printf("after that: %s\n", ctrie_concurrent_error(ctrie_concurrent_contains(mine, 0, 0)));
    return 0;
}
