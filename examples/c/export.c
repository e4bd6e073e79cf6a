/* An index that is exported while it goes on changing: the export is of one moment. */
#include <ctrie.h>
#include <stdio.h>

enum { TILL = 0, ACCOUNTS = 20, ROOM = 8 };

/* The first refusal, if there was one. */
static uint32_t refusal = CTRIE_DONE;

/* Whether a call was done. */
static bool done(uint32_t code) {
    if (CTRIE_REFUSED(code) && refusal == CTRIE_DONE) refusal = code;
    return !CTRIE_REFUSED(code);
}

/* The amount of an account; 0 where it has none. */
static uint64_t amount(struct ctrie *map, uint16_t handle, uint64_t account) {
    uint64_t amount = 0;
    done(ctrie_get(map, handle, account, &amount));
    return amount;
}

static bool set(struct ctrie *map, uint16_t handle, uint64_t account, uint64_t amount) {
    return done(ctrie_put(map, handle, account, amount, NULL));
}

/* Moves one from an account to the till, if it has one. It is moved on a copy, which becomes the index when all is done:
   so a payment that is refused changes no amount. */
static void pay(struct ctrie *map, uint16_t *index, uint64_t account) {
    uint16_t next, last = *index;
    uint64_t left = amount(map, last, account), paid = amount(map, last, TILL);
    if (refusal != CTRIE_DONE || left == 0 || !done(ctrie_snapshot(map, last, &next))) return;
    if (set(map, next, account, left - 1) && set(map, next, TILL, paid + 1)) {
        *index = next;
        next = last;
    }
    done(ctrie_close(map, next));
}

/* The sum of all amounts, listed in parts. */
static uint64_t sum(struct ctrie *map, uint16_t handle) {
    struct ctrie_cursor cursor = CTRIE_START;
    struct ctrie_pair pairs[ROOM];
    uint64_t sum = 0, count = 0;
    do {
        if (!done(ctrie_entries(map, handle, &cursor, pairs, ROOM, &count))) break;
        for (uint64_t i = 0; i < count; i++) sum += pairs[i].value;
    } while (count == ROOM);
    return sum;
}

/* How many slots are free. */
static uint32_t free_slots(struct ctrie *map) {
    uint32_t free = 0;
    done(ctrie_free_slots(map, &free));
    return free;
}

/* Freezes the index, and reads the copy while amounts are moved. */
static void run(struct ctrie *map) {
    uint16_t index = 0, copy = 0;
    uint64_t exported = 0;
    uint32_t slots = 0, with_copy;
    for (uint64_t account = 1; account <= ACCOUNTS; account++) set(map, index, account, 50);
    if (!done(ctrie_freeze(map, index, &copy))) return;
    for (uint64_t account = 1; account <= ACCOUNTS; account++) {
        pay(map, &index, account);
        exported += amount(map, copy, account);
    }
    printf("exported %llu while %llu were paid\n", (unsigned long long)exported, (unsigned long long)amount(map, index, TILL));
    printf("the copy has %llu, the index %llu\n", (unsigned long long)sum(map, copy), (unsigned long long)sum(map, index));
    with_copy = free_slots(map);
    done(ctrie_close(map, copy));
    done(ctrie_slots(map, &slots));
    printf("of %u slots %u are free with the copy and %u without\n", (unsigned)slots, (unsigned)with_copy, (unsigned)free_slots(map));
}

int main(void) {
    struct ctrie map = CTRIE_NONE;
    if (done(ctrie_new(&map, 256, CTRIE_WIDE))) run(&map);
    ctrie_free(&map);
    if (refusal != CTRIE_DONE) fprintf(stderr, "refused: %s\n", ctrie_error(refusal));
    return refusal != CTRIE_DONE;
}
