/* The loads of bench_map through C: loads LOAD FILLED OPERATIONS KEYS. LOAD is mix, get, put, insert or copy, on a map in which FILLED keys
   were put. LOAD shards freezes a shared map in eight shards, in which so many keys were put, and closes the copy. */
#include <ctrie_shared.h>
#include <stdio.h>
#include <stdlib.h>
#include <string.h>
#include <time.h>

/* Of a map, and of all shards of one together. */
enum { SLOTS = 65536, SHARDS = 8 };

static uint64_t drawn(uint64_t x) {
    x ^= x << 13;
    x ^= x >> 7;
    return x ^ (x << 17);
}

static uint64_t now(void) {
    struct timespec time;
    clock_gettime(CLOCK_MONOTONIC, &time);
    return (uint64_t)time.tv_sec * 1000000000u + (uint64_t)time.tv_nsec;
}

static void need(uint32_t code) {
    if (CTRIE_REFUSED(code)) {
        fprintf(stderr, "loads: %s\n", ctrie_shared_error(code));
        exit(1);
    }
}

static void mix(struct ctrie *map, uint64_t x, uint64_t key, uint64_t value) {
    uint64_t found = 0;
    if (x >> 60 < 6) need(ctrie_get(map, 0, key, &found));
    else if (x >> 60 < 12) need(ctrie_put(map, 0, key, value, NULL));
    else need(ctrie_remove(map, 0, key, NULL));
}

/* A freeze, the first change after it, and a close. */
static void copy(struct ctrie *map, uint64_t key, uint64_t value) {
    uint16_t frozen = 0;
    need(ctrie_freeze(map, 0, &frozen));
    need(ctrie_put(map, 0, key, value, NULL));
    need(ctrie_close(map, frozen));
}

static void operate(struct ctrie *map, const char *load, uint64_t operations, uint64_t keys) {
    uint64_t x = UINT64_C(88172645463325252), found = 0;
    for (uint64_t n = 0; n < operations; n++) {
        x = drawn(x);
        if (*load == 'm') mix(map, x, x % keys, n);
        else if (*load == 'g') need(ctrie_get(map, 0, x % keys, &found));
        else if (*load == 'p') need(ctrie_put(map, 0, x % keys, n, NULL));
        else if (*load == 'i') need(ctrie_put(map, 0, n % keys, n, NULL));
        else copy(map, x % keys, n);
    }
}

/* How many nanoseconds freezes and closes of a map in shards take. */
static uint64_t time_shards(uint64_t filled, uint64_t operations) {
    struct ctrie_seat seat = CTRIE_NO_SEAT;
    uint16_t frozen = 0;
    need(ctrie_shared_new(&seat, 1, SLOTS / SHARDS, CTRIE_LOW, SHARDS));
    for (uint64_t key = 0; key < filled; key++) need(ctrie_shared_put(&seat, 0, key, key, NULL));
    uint64_t start = now();
    for (uint64_t n = 0; n < operations; n++) {
        need(ctrie_shared_freeze(&seat, 0, &frozen));
        need(ctrie_shared_close(&seat, frozen));
    }
    uint64_t took = now() - start;
    ctrie_shared_free(&seat);
    return took;
}

/* How many nanoseconds the operations of a load take. */
static uint64_t time_load(const char *load, uint64_t filled, uint64_t operations, uint64_t keys) {
    struct ctrie map = CTRIE_NONE;
    need(ctrie_new(&map, SLOTS, CTRIE_LOW));
    operate(&map, "insert", filled, filled);
    uint64_t start = now();
    operate(&map, load, operations, keys);
    uint64_t took = now() - start;
    ctrie_free(&map);
    return took;
}

int main(int words, char **word) {
    if (words != 5 || !strchr("mgpics", *word[1])) return 2;
    uint64_t filled = strtoull(word[2], NULL, 10), operations = strtoull(word[3], NULL, 10), keys = strtoull(word[4], NULL, 10);
    uint64_t took = *word[1] == 's' ? time_shards(filled, operations) : time_load(word[1], filled, operations, keys);
    printf("%llu operations, %llu ns\n", (unsigned long long)operations, (unsigned long long)took);
    return 0;
}
