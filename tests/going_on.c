/* A map that is full can be changed all the same, while one handle alone is open. Maps are filled, and keys taken out again until a
   number of slots is free; then a copy is made, which is FULL just where no slot is, and closed, and each key gets another value and is
   taken out: none of this may be FULL. With a copy open a change may be; after its close none is. The same of shared maps, whose
   shards are filled one and all. And maps that were sized by `ctrie_slots_for` have room for their keys, and for one copy while a third
   of the keys get another value. */
#include <ctrie_shared.h>
#include <stdio.h>
#include <stdlib.h>

enum { MOST = 70000, MOST_FREE = 80 };

static uint64_t keys[MOST];
static uint64_t refused_beside_copies, copies_refused, copies_made;

/* A map alone, or a seat of a shared one; and what is tried of it. */
struct one {
    struct ctrie map;
    struct ctrie_seat seat;
    uint8_t shards; /* 0: a map alone */
    uint32_t slots, hash, free;
};

static void fail(const char *what, const struct one *it, uint32_t code) {
    printf("%s: %u slots, %u shards, hash %u, %u slots left free: code %u\n", what, (unsigned)it->slots, (unsigned)it->shards, (unsigned)it->hash,
           (unsigned)it->free, (unsigned)code);
    exit(1);
}

static void must(const char *what, const struct one *it, uint32_t code, uint32_t wanted) {
    if (code != wanted) fail(what, it, code);
}

static uint32_t put(struct one *it, uint64_t key, uint64_t value) {
    return it->shards ? ctrie_shared_put(&it->seat, 0, key, value, NULL) : ctrie_put(&it->map, 0, key, value, NULL);
}

static uint32_t take(struct one *it, uint64_t key) {
    return it->shards ? ctrie_shared_remove(&it->seat, 0, key, NULL) : ctrie_remove(&it->map, 0, key, NULL);
}

static uint32_t clear(struct one *it) {
    return it->shards ? ctrie_shared_clear(&it->seat, 0) : ctrie_clear(&it->map, 0);
}

static uint32_t freeze(struct one *it, uint16_t *copy) {
    return it->shards ? ctrie_shared_freeze(&it->seat, 0, copy) : ctrie_freeze(&it->map, 0, copy);
}

static uint32_t close_copy(struct one *it, uint16_t copy) {
    return it->shards ? ctrie_shared_close(&it->seat, copy) : ctrie_close(&it->map, copy);
}

/* How many slots are free in all. */
static uint64_t free_slots(struct one *it) {
    uint64_t many = 0;
    uint32_t few = 0;
    must("how many are free", it, it->shards ? ctrie_shared_free_slots(&it->seat, &many) : ctrie_free_slots(&it->map, &few), CTRIE_DONE);
    return it->shards ? many : few;
}

/* Whether a slot is free in each shard. */
static bool has_room(struct one *it) {
    return it->shards ? ctrie_shared_has_room(&it->seat) == CTRIE_YES : free_slots(it) > 0;
}

static void make(struct one *it) {
    must("a new map", it, it->shards ? ctrie_shared_new(&it->seat, 1, it->slots / it->shards, it->hash, it->shards) : ctrie_new(&it->map, it->slots, it->hash),
         CTRIE_DONE);
}

static void release(struct one *it) {
    if (it->shards)
        ctrie_shared_free(&it->seat);
    else
        ctrie_free(&it->map);
}

static uint64_t next_random(uint64_t *x) {
    *x ^= *x << 13;
    *x ^= *x >> 7;
    *x ^= *x << 17;
    return *x;
}

/* Random keys until no slot is free; how many were put. In one shard none is refused before. */
static uint32_t fill(struct one *it) {
    uint64_t x = 88172645463325252ull + it->slots, left = free_slots(it);
    uint32_t count = 0;
    while (left > 0 && count < MOST) {
        uint64_t key = next_random(&x);
        uint32_t code = put(it, key, count);
        if (code == CTRIE_NO) keys[count++] = key;
        else if (it->shards < 2) fail("a put where a slot is free", it, code);
        else must("a put", it, code, CTRIE_FULL);
        left = free_slots(it);
    }
    must("a put where no slot is free", it, put(it, next_random(&x), 0), CTRIE_FULL);
    return count;
}

/* One handle alone is open: each key from here on gets another value and is taken out. */
static void empty(struct one *it, uint32_t from, uint32_t count) {
    for (uint32_t i = from; i < count; i++) must("a put over a value", it, put(it, keys[i], 7), CTRIE_YES);
    for (uint32_t i = from; i < count; i++) must("a removal", it, take(it, keys[i]), CTRIE_YES);
}

/* A copy, of which half of the keys are taken out beside it. How many were. */
static uint32_t copy_and_close(struct one *it, uint32_t count, bool beside) {
    uint16_t copy = 0;
    uint32_t taken = 0, code = CTRIE_YES;
    bool room = has_room(it);
    must("a freeze", it, freeze(it, &copy), room ? CTRIE_DONE : CTRIE_FULL);
    if (!room) {
        copies_refused++;
        return 0;
    }
    copies_made++;
    while (beside && code == CTRIE_YES && taken < count / 2) {
        code = take(it, keys[taken]);
        if (code == CTRIE_YES) taken++;
        else must("a removal beside a copy", it, code, CTRIE_FULL);
    }
    if (code == CTRIE_FULL) refused_beside_copies++;
    must("a close", it, close_copy(it, copy), CTRIE_DONE);
    return taken;
}

static void try_full(uint8_t shards, uint32_t slots, uint32_t hash, uint32_t free, bool beside) {
    struct one it = {CTRIE_NONE, CTRIE_NO_SEAT, shards, slots, hash, free};
    uint64_t new_free;
    uint32_t count, taken;
    make(&it);
    new_free = free_slots(&it);
    count = fill(&it);
    while (count > 0 && free_slots(&it) < free) must("a removal from a full map", &it, take(&it, keys[--count]), CTRIE_YES);
    taken = copy_and_close(&it, count, beside);
    empty(&it, taken, count);
    if (free_slots(&it) != new_free) fail("slots are missing", &it, 0);
    fill(&it);
    must("a clear of a full map", &it, clear(&it), CTRIE_DONE);
    if (free_slots(&it) != new_free) fail("slots are missing after a clear", &it, 0);
    release(&it);
}

/* Keys, a copy, and every third key once more. */
static void try_guide(uint32_t count, uint32_t hash) {
    struct one it = {CTRIE_NONE, CTRIE_NO_SEAT, 0, ctrie_slots_for(count), hash, 0};
    uint64_t x = 2463534242ull + count;
    uint16_t copy = 0;
    make(&it);
    for (uint32_t i = 0; i < count; i++) {
        keys[i] = next_random(&x);
        must("a put of as many keys as were asked for", &it, put(&it, keys[i], i), CTRIE_NO);
    }
    must("a copy of as many", &it, freeze(&it, &copy), CTRIE_DONE);
    for (uint32_t i = 0; i < count; i += 3) must("a put over a third of them", &it, put(&it, keys[i], 7), CTRIE_YES);
    release(&it);
}

int main(void) {
    static const uint32_t sizes[] = {64, 600, 4096, 65536}, counts[] = {1, 10, 40, 150, 600, 1100, 4000, 10000, 20000, 38000};
    static const uint8_t shards[] = {0, 1, 8};
    for (int size = 0; size < 4; size++)
        for (uint32_t hash = 0; hash < 4; hash++)
            for (uint32_t free = 0; free <= MOST_FREE; free += sizes[size] < 65536 ? 1 : 40)
                for (int kind = 0; kind < 3; kind++) {
                    try_full(shards[kind], sizes[size], hash, free, false);
                    try_full(shards[kind], sizes[size], hash, free, true);
                }
    for (uint32_t hash = 0; hash < 4; hash++)
        for (int i = 0; i < 10; i++) try_guide(counts[i], hash);
    if (!refused_beside_copies || !copies_refused || !copies_made) {
        printf("no change was FULL beside a copy, no copy was, or each\n");
        return 1;
    }
    printf("%llu copies made, %llu refused; %llu times a change beside one\n", (unsigned long long)copies_made, (unsigned long long)copies_refused,
           (unsigned long long)refused_beside_copies);
    return 0;
}
