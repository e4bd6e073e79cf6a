/* Makes each call of ctrie_concurrent.h, by one thread: what it answers and writes, how it refuses, and what holds after that.
   `c` runs it. */
#include <ctrie_concurrent.h>
#include <stdio.h>
#include <stdlib.h>
#include <string.h>

enum { KEYS = 20000, HANDLES = 256, ROOM = 2 };

/* Ends the program where what stands in this line isn't so. */
#define EXPECT(is_so)                                             \
    do {                                                          \
        if (!(is_so)) {                                           \
            printf("line %d: it isn't so: %s\n", __LINE__, #is_so); \
            exit(1);                                              \
        }                                                         \
    } while (0)

/* Before a map is made, and as it is. */
static void make(struct ctrie_concurrent_seat *seat, struct ctrie_concurrent_seat *other) {
    struct ctrie_concurrent_seat both[256] = {CTRIE_NO_SEAT}, third = CTRIE_NO_SEAT;
    uint64_t value = 9;
    EXPECT(ctrie_concurrent_get(seat, 0, 7, &value) == CTRIE_NO_MAP && value == 9);
    EXPECT(ctrie_concurrent_try_settle(seat, 1) == CTRIE_NO_MAP);
    EXPECT(ctrie_concurrent_close(seat, 0) == CTRIE_NO_MAP);
    EXPECT(ctrie_concurrent_split(seat, other) == CTRIE_NO_MAP);
    EXPECT(ctrie_concurrent_open(seat, KEYS, 4, 2) == CTRIE_BAD_HASH);
    EXPECT(ctrie_concurrent_open(seat, KEYS, CTRIE_WIDE, 0) == CTRIE_BAD_SIZES);
    EXPECT(ctrie_concurrent_open(seat, UINT32_MAX, CTRIE_WIDE, 2) == CTRIE_BAD_SIZES);
    EXPECT(ctrie_concurrent_new(both, 0, KEYS, CTRIE_WIDE) == CTRIE_NO_SEATS);
    EXPECT(ctrie_concurrent_new(both, 256, KEYS, CTRIE_WIDE) == CTRIE_NO_SEATS);
    EXPECT(ctrie_concurrent_new(both, 2, UINT32_MAX, CTRIE_WIDE) == CTRIE_BAD_SIZES && !both[0].at && !both[1].at);
    EXPECT(ctrie_concurrent_new(both, 2, KEYS, CTRIE_WIDE) == CTRIE_DONE && both[0].at && both[1].at);
    EXPECT(ctrie_concurrent_new(both, 2, KEYS, CTRIE_WIDE) == CTRIE_HAS_MAP);
    EXPECT(ctrie_concurrent_open(&both[0], KEYS, CTRIE_WIDE, 2) == CTRIE_HAS_MAP);
    EXPECT(ctrie_concurrent_split(&both[0], &both[1]) == CTRIE_HAS_MAP);
    EXPECT(ctrie_concurrent_split(&both[0], &third) == CTRIE_NO_SEATS && !third.at);
    *seat = both[0];
    *other = both[1];
}

static void change_keys(struct ctrie_concurrent_seat *seat) {
    uint64_t value = 9;
    EXPECT(ctrie_concurrent_get(seat, 0, 7, &value) == CTRIE_NO && value == 9);
    EXPECT(ctrie_concurrent_put(seat, 0, 7, 250, &value) == CTRIE_NO && value == 9);
    EXPECT(ctrie_concurrent_put(seat, 0, 7, 300, &value) == CTRIE_YES && value == 250);
    EXPECT(ctrie_concurrent_put(seat, 0, 7, 300, NULL) == CTRIE_YES);
    EXPECT(ctrie_concurrent_put_if_absent(seat, 0, 7, 1, &value) == CTRIE_YES && value == 300);
    EXPECT(ctrie_concurrent_put_if_absent(seat, 0, 8, 1, NULL) == CTRIE_NO);
    EXPECT(ctrie_concurrent_replace(seat, 0, 9, 1, NULL) == CTRIE_NO);
    EXPECT(ctrie_concurrent_replace(seat, 0, 8, 2, &value) == CTRIE_YES && value == 1);
    EXPECT(ctrie_concurrent_replace_if(seat, 0, 8, 2, 3) == CTRIE_YES);
    EXPECT(ctrie_concurrent_replace_if(seat, 0, 8, 2, 4) == CTRIE_NO);
    EXPECT(ctrie_concurrent_get(seat, 0, 8, &value) == CTRIE_YES && value == 3);
    EXPECT(ctrie_concurrent_get(seat, 0, 8, NULL) == CTRIE_YES);
    EXPECT(ctrie_concurrent_remove_if(seat, 0, 8, 2) == CTRIE_NO);
    EXPECT(ctrie_concurrent_remove_if(seat, 0, 8, 3) == CTRIE_YES);
    EXPECT(ctrie_concurrent_contains(seat, 0, 8) == CTRIE_NO);
    EXPECT(ctrie_concurrent_remove(seat, 0, 8, NULL) == CTRIE_NO);
    EXPECT(ctrie_concurrent_remove(seat, 0, 7, &value) == CTRIE_YES && value == 300);
    EXPECT(ctrie_concurrent_contains(seat, 0, 7) == CTRIE_NO);
}

static void copy(struct ctrie_concurrent_seat *seat, struct ctrie_concurrent_seat *other) {
    struct ctrie_pair pairs[ROOM] = {{0, 0}, {0, 0}};
    uint64_t key, count = 9, value;
    uint16_t frozen, copied, third = 9;
    for (key = 1; key <= 3; key++) EXPECT(ctrie_concurrent_put(seat, 0, key, 10 * key, NULL) == CTRIE_NO);
    EXPECT(ctrie_concurrent_freeze(seat, 0, &frozen) == CTRIE_DONE && frozen != 0);
    EXPECT(ctrie_concurrent_snapshot(seat, 0, &copied) == CTRIE_DONE && copied != 0 && copied != frozen);
    EXPECT(ctrie_concurrent_clear(seat, 0) == CTRIE_DONE);
    EXPECT(ctrie_concurrent_contains(seat, 0, 1) == CTRIE_NO);
    EXPECT(ctrie_concurrent_put(other, copied, 1, 11, &value) == CTRIE_YES && value == 10);
    EXPECT(ctrie_concurrent_get(other, frozen, 1, &value) == CTRIE_YES && value == 10);
    EXPECT(ctrie_concurrent_put(seat, frozen, 1, 11, NULL) == CTRIE_READ_ONLY);
    EXPECT(ctrie_concurrent_clear(seat, frozen) == CTRIE_READ_ONLY);
    EXPECT(ctrie_concurrent_freeze(seat, frozen, &third) == CTRIE_READ_ONLY && third == 9);
    EXPECT(ctrie_concurrent_snapshot(seat, frozen, &third) == CTRIE_READ_ONLY && third == 9);
    EXPECT(ctrie_concurrent_count(seat, copied, &count) == CTRIE_NOT_READ_ONLY && count == 9);
    EXPECT(ctrie_concurrent_entries(seat, 0, pairs, ROOM, &count) == CTRIE_NOT_READ_ONLY && count == 9);
    EXPECT(ctrie_concurrent_count(seat, frozen, &count) == CTRIE_DONE && count == 3);
    EXPECT(ctrie_concurrent_entries(seat, frozen, pairs, 1, &count) == CTRIE_DONE && count == 3);
    EXPECT(pairs[0].key == 1 && pairs[0].value == 10 && pairs[1].key == 0 && pairs[1].value == 0);
    EXPECT(ctrie_concurrent_close(seat, frozen) == CTRIE_DONE);
    EXPECT(ctrie_concurrent_close(seat, frozen) == CTRIE_NO_HANDLE);
    EXPECT(ctrie_concurrent_get(seat, frozen, 1, &value) == CTRIE_NO_HANDLE);
    EXPECT(ctrie_concurrent_close(other, copied) == CTRIE_DONE);
}

/* What a call of no tries leaves, which has begun nothing. */
static void try_in_none(struct ctrie_concurrent_seat *seat) {
    uint64_t value = 9;
    EXPECT(ctrie_concurrent_try_put(seat, 0, 0, 5, 50, &value) == CTRIE_SPENT && value == 9);
    EXPECT(ctrie_concurrent_contains(seat, 0, 5) == CTRIE_NO);
    EXPECT(ctrie_concurrent_try_put(seat, CTRIE_TRIES, 0, 5, 50, &value) == CTRIE_NO && value == 9);
    EXPECT(ctrie_concurrent_try_get(seat, CTRIE_TRIES, 0, 5, &value) == CTRIE_YES && value == 50);
}

/* All handles, and then all slots. */
static void fill(struct ctrie_concurrent_seat *seat) {
    uint16_t copies[HANDLES], one_more = 9;
    uint64_t key, value;
    uint32_t code = CTRIE_NO;
    int made;
    for (made = 1; made < HANDLES; made++) {
        /* A seat is full after 64 copies where it has given up no slot: the second put gives up what the first one has taken. */
        EXPECT(ctrie_concurrent_put(seat, 0, 5, 50, NULL) == CTRIE_YES);
        EXPECT(ctrie_concurrent_put(seat, 0, 5, 50, NULL) == CTRIE_YES);
        EXPECT(ctrie_concurrent_freeze(seat, 0, &copies[made]) == CTRIE_DONE && copies[made] < HANDLES);
    }
    EXPECT(ctrie_concurrent_freeze(seat, 0, &one_more) == CTRIE_HANDLES_FULL && one_more == 9);
    for (made = 1; made < HANDLES; made++) EXPECT(ctrie_concurrent_close(seat, copies[made]) == CTRIE_DONE);
    for (key = 1000; code == CTRIE_NO; key++) code = ctrie_concurrent_put(seat, 0, key, key, NULL);
    EXPECT(code == CTRIE_FULL);
    EXPECT(ctrie_concurrent_contains(seat, 0, key - 1) == CTRIE_NO);
    EXPECT(ctrie_concurrent_get(seat, 0, key - 2, &value) == CTRIE_YES && value == key - 2);
}

static void name_codes(void) {
    uint32_t code;
    for (code = 0; code <= CTRIE_SPENT; code++) EXPECT(!strstr(ctrie_concurrent_error(code), "answers this code"));
    EXPECT(strstr(ctrie_concurrent_error(CTRIE_SPENT + 1), "answers this code"));
}

int main(void) {
    struct ctrie_concurrent_seat seat = CTRIE_NO_SEAT, other = CTRIE_NO_SEAT;
    make(&seat, &other);
    change_keys(&seat);
    copy(&seat, &other);
    try_in_none(&seat);
    fill(&seat);
    name_codes();
    ctrie_concurrent_drop(&seat);
    EXPECT(!seat.at && ctrie_concurrent_contains(&seat, 0, 7) == CTRIE_NO_MAP);
    EXPECT(ctrie_concurrent_contains(&other, 0, 5) == CTRIE_YES);
    ctrie_concurrent_free(&other);
    ctrie_concurrent_free(&other);
    return 0;
}
