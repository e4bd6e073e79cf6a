/* What to do at FULL: go on in a larger map. All pairs are scanned and put there; the old map is freed. */
#include <ctrie.h>
#include <stdio.h>

#define KEYS 1000
#define ROOM 256

/* the first refusal */
static uint32_t refusal;

/* Whether it was done. The first refusal is kept. */
static int done(uint32_t code) {
    if (CTRIE_REFUSED(code) && !refusal) refusal = code;
    return !CTRIE_REFUSED(code);
}

/* Puts all pairs of a handle's map into another map. The map isn't changed meanwhile; where it may be, freeze it before it is
   full, scan the copy and close that. */
static int move(struct ctrie *from, uint16_t handle, struct ctrie *to) {
    struct ctrie_cursor cursor = CTRIE_START;
    struct ctrie_pair pairs[ROOM];
    uint64_t count = 0;
    do {
        if (!done(ctrie_scan(from, handle, &cursor, pairs, ROOM, &count))) return 0;
        for (uint64_t i = 0; i < count; i++)
            if (!done(ctrie_put(to, 0, pairs[i].key, pairs[i].value, NULL))) return 0;
    } while (count == ROOM);
    return 1;
}

/* The map has twice as many slots from now on. */
static int grow(struct ctrie *map) {
    struct ctrie larger = CTRIE_NONE;
    uint32_t slots = 0;
    if (!done(ctrie_slots(map, &slots)) || !done(ctrie_new(&larger, 2 * slots, CTRIE_WIDE))) return 0;
    if (!move(map, 0, &larger)) {
        ctrie_free(&larger);
        return 0;
    }
    ctrie_free(map);
    *map = larger; /* it is moved, not copied: only this one is used from now on */
    return 1;
}

static void run(struct ctrie *map) {
    uint64_t key, count = 0, sum = 0, value;
    uint32_t slots = 0;
    int times = 0;
    for (key = 0; key < KEYS; key++) {
        uint32_t code = ctrie_put(map, 0, key, 3 * key, NULL);
        if (code == CTRIE_FULL) {
            if (!grow(map)) return;
            times++;
            code = ctrie_put(map, 0, key, 3 * key, NULL);
        }
        if (!done(code)) return;
    }
    for (key = 0; key < KEYS; key++)
        if (ctrie_get(map, 0, key, &value) == CTRIE_YES) sum += value;
    done(ctrie_count(map, 0, &count));
    done(ctrie_slots(map, &slots));
    printf("%llu keys with the sum %llu, on %u slots after %d moves\n", (unsigned long long)count, (unsigned long long)sum, (unsigned)slots, times);
}

int main(void) {
    struct ctrie map = CTRIE_NONE;
    if (done(ctrie_new(&map, 64, CTRIE_WIDE))) run(&map);
    ctrie_free(&map);
    if (refusal != CTRIE_DONE) fprintf(stderr, "refused: %s\n", ctrie_error(refusal));
    return refusal != CTRIE_DONE;
}
