/* The memory of a map is what ctrie_new took. `c` runs it: a million changes, freezes and closes on a thousand keys
   allocate nothing, and at most a hundredth more is resident after them than after the first ten thousand. Where no
   memory is given, a call that makes a list says so, and changes nothing. */
#include "memory.h"
#include <ctrie.h>

enum { KEYS = 1000, SLOTS = 65536, WARM = 10000, CALLS = 1000000 };

/* What the map should hold: the value of each key, or 0 where it has none. Values are from 1 on. */
static uint64_t plain[KEYS];

static struct ctrie map = CTRIE_NONE;
static uint16_t now = 0;
static unsigned long calls = 0;

/* Pseudorandom numbers. */
static uint32_t drawn(void) {
    static uint64_t state = 1;
    state = state * 6364136223846793005u + 1442695040888963407u;
    return (uint32_t)(state >> 33);
}

/* Counts a call, and ends the program where it was refused. */
static bool told(uint32_t code) {
    calls++;
    if (CTRIE_REFUSED(code)) {
        printf("call %lu was refused: code %u\n", calls, (unsigned)code);
        exit(1);
    }
    return code == CTRIE_YES;
}

/* Ends the program where the map doesn't answer as it should. */
static void expect(bool is_so) {
    if (!is_so) {
        printf("call %lu told something else than was there\n", calls);
        exit(1);
    }
}

/* One call on a key. */
static void change(void) {
    uint64_t key = drawn() % KEYS, value = drawn() % 7 + 1, before = 0, was = plain[key];
    switch (drawn() % 8) {
    case 0:
        expect(told(ctrie_remove(&map, now, key, &before)) == (was != 0) && before == was);
        plain[key] = 0;
        break;
    case 1:
        expect(told(ctrie_remove_if(&map, now, key, value)) == (was == value));
        if (was == value) plain[key] = 0;
        break;
    case 2:
        expect(told(ctrie_replace(&map, now, key, value, &before)) == (was != 0) && before == was);
        if (was != 0) plain[key] = value;
        break;
    case 3:
        expect(told(ctrie_replace_if(&map, now, key, value, 8)) == (was == value));
        if (was == value) plain[key] = 8;
        break;
    case 4:
        expect(told(ctrie_put_if_absent(&map, now, key, value, &before)) == (was != 0) && before == was);
        if (was == 0) plain[key] = value;
        break;
    default:
        expect(told(ctrie_put(&map, now, key, value, &before)) == (was != 0) && before == was);
        plain[key] = value;
    }
}

/* A snapshot with which it goes on, and a frozen copy, which keeps its values while ten keys change; both are closed
   then. Now and then the map is cleared. */
static void copy(void) {
    uint16_t next = 0, frozen = 0;
    uint64_t key = drawn() % KEYS, was = plain[key], value = 0;
    told(ctrie_snapshot(&map, now, &next));
    told(ctrie_freeze(&map, now, &frozen));
    told(ctrie_close(&map, now));
    now = next;
    for (int i = 0; i < 10; i++) change();
    expect(told(ctrie_get(&map, frozen, key, &value)) == (was != 0) && value == was);
    told(ctrie_close(&map, frozen));
    if (drawn() % 100 == 0) {
        told(ctrie_clear(&map, now));
        for (int i = 0; i < KEYS; i++) plain[i] = 0;
    }
}

/* A key that no other call sets. */
static void without_memory(void) {
    const struct ctrie_pair pair = {KEYS, 3};
    struct ctrie_cursor cursor = CTRIE_START;
    struct ctrie_pair entry = {7, 7};
    struct ctrie_difference difference = {7, 7, 7, true, true};
    uint16_t before = 0;
    uint64_t count = 7, value = 0;
    told(ctrie_freeze(&map, now, &before));
    told(ctrie_put(&map, now, KEYS, 2, NULL));
    refusing = true;
    expect(ctrie_entries(&map, now, &cursor, &entry, 1, &count) == CTRIE_MEMORY);
    expect(ctrie_scan(&map, now, &cursor, &entry, 1, &count) == CTRIE_MEMORY);
    expect(ctrie_diff(&map, before, now, &difference, 1, &count) == CTRIE_MEMORY);
    expect(ctrie_put_all(&map, now, &pair, 1) == CTRIE_MEMORY);
    refusing = false;
    expect(!cursor.begun && entry.key == 7 && difference.key == 7 && count == 7);
    expect(told(ctrie_get(&map, now, KEYS, &value)) && value == 2);
    told(ctrie_remove(&map, now, KEYS, NULL));
    told(ctrie_close(&map, before));
}

static void run_until(unsigned long end) {
    while (calls < end) {
        if (drawn() % 50 == 0) copy();
        else change();
    }
}

int main(void) {
    uint64_t count = 0, there = 0;
    unsigned long taken;
    long few, many;
    told(ctrie_new(&map, SLOTS, CTRIE_FOLD));
    taken = allocations;
    run_until(WARM);
    resident(); /* what reads it is resident itself from here on */
    few = resident();
    run_until(CALLS);
    many = resident();
    taken = allocations - taken;
    without_memory();
    told(ctrie_count(&map, now, &count));
    for (int i = 0; i < KEYS; i++) there += plain[i] != 0;
    expect(count == there);
    ctrie_free(&map);
    printf("%lu allocations in %d calls; %ld kB resident after %d of them, %ld kB after all\n", taken, CALLS, few, WARM, many);
    return taken != 0 || many > few + few / 100;
}
