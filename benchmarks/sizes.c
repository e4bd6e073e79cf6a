/* What a map of so many keys takes, and how long its walks are: sizes SLOTS KEYS. The keys are spread over all 64 bits. */
#include <ctrie.h>
#include <stdio.h>
#include <stdlib.h>
#include <time.h>
#include <unistd.h>

enum { PARTS = 50, CHANGED = 10 };

static uint64_t key_of(uint64_t n) { return (n + 1) * UINT64_C(0x9E3779B97F4A7C15); }

static double now(void) {
    struct timespec time;
    clock_gettime(CLOCK_MONOTONIC, &time);
    return (double)time.tv_sec + 1e-9 * (double)time.tv_nsec;
}

/* The resident size of this process in bytes. */
static double resident(void) {
    unsigned long whole = 0, pages = 0;
    FILE *file = fopen("/proc/self/statm", "r");
    if (!file || fscanf(file, "%lu %lu", &whole, &pages) != 2) exit(1);
    fclose(file);
    return (double)pages * (double)sysconf(_SC_PAGESIZE);
}

static void need(bool done, const char *what) {
    if (!done) {
        fprintf(stderr, "sizes: %s\n", what);
        exit(1);
    }
}

static void fill(struct ctrie *map, uint64_t keys) {
    for (uint64_t n = 0; n < keys; n++) need(!CTRIE_REFUSED(ctrie_put(map, 0, key_of(n), n, NULL)), "put");
}

/* The time of a part of 64 pairs, after keys all over the map. */
static double time_parts(struct ctrie *map, uint64_t keys) {
    struct ctrie_pair pairs[64];
    double start = now();
    for (uint64_t n = 0; n < PARTS; n++) {
        struct ctrie_cursor cursor = CTRIE_START;
        uint64_t many = 0;
        cursor.last = key_of(n * keys / PARTS);
        cursor.begun = true;
        need(ctrie_entries(map, 0, &cursor, pairs, 64, &many) == CTRIE_DONE, "entries");
    }
    return (now() - start) / PARTS;
}

/* The time of a part of 64 pairs in the map's own order, where parts of it list the whole map. */
static double time_scan(struct ctrie *map, uint64_t keys) {
    struct ctrie_pair pairs[64];
    struct ctrie_cursor cursor = CTRIE_START;
    uint64_t many = 0, all = 0, parts = 0;
    double start = now();
    do {
        need(ctrie_scan(map, 0, &cursor, pairs, 64, &many) == CTRIE_DONE, "scan");
        all += many;
        parts++;
    } while (many == 64);
    need(all == keys, "each key is listed once");
    return (now() - start) / (double)parts;
}

static double time_count(struct ctrie *map, uint64_t keys) {
    uint64_t count = 0;
    double start = now();
    for (int n = 0; n < PARTS; n++) need(ctrie_count(map, 0, &count) == CTRIE_DONE && count == keys, "count");
    return (now() - start) / PARTS;
}

/* The time of a comparison of two copies in which so many keys have different values. */
static double time_diff(struct ctrie *map, uint64_t keys) {
    uint16_t before = 0, after = 0;
    uint64_t count = 0;
    struct ctrie_difference differences[CHANGED];
    need(ctrie_freeze(map, 0, &before) == CTRIE_DONE, "freeze");
    for (uint64_t n = 0; n < CHANGED; n++) need(!CTRIE_REFUSED(ctrie_put(map, 0, key_of(n * keys / CHANGED), keys, NULL)), "put");
    need(ctrie_freeze(map, 0, &after) == CTRIE_DONE, "freeze");
    double start = now();
    for (int n = 0; n < PARTS; n++) need(ctrie_diff(map, before, after, differences, CHANGED, &count) == CTRIE_DONE && count == CHANGED, "diff");
    return (now() - start) / PARTS;
}

int main(int words, char **word) {
    if (words != 3) return 2;
    uint32_t slots = (uint32_t)strtoul(word[1], NULL, 10), in_use = 0, left = 0;
    uint64_t keys = strtoull(word[2], NULL, 10);
    struct ctrie map = CTRIE_NONE;
    double before = resident();
    need(ctrie_new(&map, slots, CTRIE_FOLD) == CTRIE_DONE, "new");
    double empty = resident() - before, start = now();
    fill(&map, keys);
    double took = now() - start, full = resident() - before;
    need(ctrie_free_slots(&map, &left) == CTRIE_DONE, "free");
    in_use = slots - left;
    printf("%u slots, %llu keys: %.0f kB when it was new, %.0f kB full: %.0f bytes a slot, %.0f bytes a key, %.2f slots a key\n", slots,
           (unsigned long long)keys, empty / 1000, full / 1000, full / slots, full / (double)keys, (double)in_use / (double)keys);
    printf("inserts: %.0f a second; a count: %.2f ms; a part of 64: %.2f ms, in the map's own order %.2f us", (double)keys / took,
           1e3 * time_count(&map, keys), 1e3 * time_parts(&map, keys), 1e6 * time_scan(&map, keys));
    printf("; the differences of two copies, %d keys: %.1f us\n", CHANGED, 1e6 * time_diff(&map, keys));
    ctrie_free(&map);
    return 0;
}
