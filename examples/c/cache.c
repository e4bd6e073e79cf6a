/* A cache of what is slow to work out. Its memory is bounded: when its slots are full it begins anew. */
#include <ctrie.h>
#include <stdio.h>

/* A cache, with how often it knew the answer and how often it began anew. The first handle stays empty. What is cached
   stands in copies of it. */
struct cache {
    struct ctrie map;
    uint16_t now;
    unsigned hits, renewals;
};

/* How many steps the rule of Collatz takes from the number to 1. */
static uint64_t slow(uint64_t number) {
    uint64_t steps = 0;
    for (; number > 1; steps++) number = number % 2 == 0 ? number / 2 : 3 * number + 1;
    return steps;
}

/* Goes on with an empty copy. A close makes free what this map alone had, and wants no slot itself. */
static uint32_t begin_anew(struct cache *cache) {
    uint32_t code = ctrie_close(&cache->map, cache->now);
    if (CTRIE_REFUSED(code)) return code;
    cache->renewals++;
    return ctrie_snapshot(&cache->map, 0, &cache->now);
}

/* The steps from the number, worked out if they aren't known yet. */
static uint32_t steps_from(struct cache *cache, uint64_t number, uint64_t *steps) {
    uint32_t code = ctrie_get(&cache->map, cache->now, number, steps);
    if (code == CTRIE_YES) {
        cache->hits++;
        return CTRIE_DONE;
    }
    if (CTRIE_REFUSED(code)) return code;
    *steps = slow(number);
    code = ctrie_put(&cache->map, cache->now, number, *steps, NULL);
    if (code == CTRIE_FULL) {
        code = begin_anew(cache);
        if (CTRIE_REFUSED(code)) return code;
        code = ctrie_put(&cache->map, cache->now, number, *steps, NULL);
    }
    return CTRIE_REFUSED(code) ? code : CTRIE_DONE;
}

/* Asks a cache of this size for 40 numbers three times, and for 27 after each. */
static uint32_t ask(struct cache *cache, uint32_t slots) {
    uint64_t most = 0, known;
    uint32_t code = ctrie_new(&cache->map, slots, CTRIE_WIDE);
    if (code == CTRIE_DONE) code = ctrie_snapshot(&cache->map, 0, &cache->now);
    for (int round = 0; round < 3; round++)
        for (uint64_t number = 1; number < 41 && code == CTRIE_DONE; number++) {
            uint64_t steps = 0, often = 0;
            code = steps_from(cache, number, &steps);
            if (code == CTRIE_DONE) code = steps_from(cache, 27, &often);
            if (steps > most) most = steps;
            if (often > most) most = often;
        }
    if (code == CTRIE_DONE) code = ctrie_count(&cache->map, cache->now, &known);
    if (code == CTRIE_DONE)
        printf("%u slots: %u hits, %u times anew, %llu known at last, at most %llu steps\n", (unsigned)slots, cache->hits, cache->renewals,
               (unsigned long long)known, (unsigned long long)most);
    return code;
}

int main(void) {
    uint32_t sizes[] = {32, 128};
    for (int i = 0; i < 2; i++) {
        struct cache cache = {CTRIE_NONE, 0, 0, 0};
        uint32_t code = ask(&cache, sizes[i]);
        ctrie_free(&cache.map);
        if (code != CTRIE_DONE) {
            fprintf(stderr, "refused: %s\n", ctrie_error(code));
            return 1;
        }
    }
    return 0;
}
