/* Each call once in each way that is easy to bring about. */
#include <ctrie.h>
#include <stdio.h>

static struct ctrie map = CTRIE_NONE;

/* Prints what a call answered, and then what it wrote. */
#define TELL(name, call, written) \
    do { \
        unsigned code = (call); \
        printf("%-24s %2u %llu\n", name, code, (unsigned long long)(written)); \
    } while (0)

static void lists(uint16_t handle, size_t room) {
    struct ctrie_cursor cursor = CTRIE_START;
    struct ctrie_pair pairs[4] = {{0, 0}, {0, 0}, {0, 0}, {0, 0}};
    uint64_t count = 0;
    do {
        TELL("entries", ctrie_entries(&map, handle, &cursor, pairs, room, &count), count);
        for (uint64_t i = 0; i < count; i++) printf("  %llu: %llu\n", (unsigned long long)pairs[i].key, (unsigned long long)pairs[i].value);
    } while (room != 0 && count == room);
}

/* In the map's own order: key 33 comes after key 1, with which it shares the lowest five bits, and before key 2. */
static void scans(uint16_t handle, size_t room) {
    struct ctrie_cursor cursor = CTRIE_START;
    struct ctrie_pair pairs[4] = {{0, 0}, {0, 0}, {0, 0}, {0, 0}};
    uint64_t count = 0;
    do {
        TELL("scan", ctrie_scan(&map, handle, &cursor, pairs, room, &count), count);
        for (uint64_t i = 0; i < count; i++) printf("  %llu: %llu\n", (unsigned long long)pairs[i].key, (unsigned long long)pairs[i].value);
    } while (count == room);
}

/* Nothing that is pointed to changes where no map is held. */
static void lists_no_map(void) {
    struct ctrie_cursor cursor = {5, true};
    struct ctrie_pair pair = {6, 7};
    uint64_t count = 99;
    TELL("entries of no map", ctrie_entries(&map, 0, &cursor, &pair, 1, &count), count);
    TELL("scan of no map", ctrie_scan(&map, 0, &cursor, &pair, 1, &count), count);
    printf("  %llu %d\n", (unsigned long long)cursor.last, cursor.begun);
    printf("  %llu: %llu\n", (unsigned long long)pair.key, (unsigned long long)pair.value);
}

static void tells_a_value(bool there, uint64_t value) {
    if (there) printf(" %llu", (unsigned long long)value);
    else printf(" none");
}

static void compares(uint16_t older, uint16_t newer, size_t room) {
    struct ctrie_difference differences[4];
    uint64_t count = 99;
    TELL("diff", ctrie_diff(&map, older, newer, differences, room, &count), count);
    for (uint64_t i = 0; i < count && i < room; i++) {
        printf("  %llu:", (unsigned long long)differences[i].key);
        tells_a_value(differences[i].was_there, differences[i].before);
        tells_a_value(differences[i].is_there, differences[i].after);
        printf("\n");
    }
}

/* All or none: 64 keys more have no room in 64 slots. */
static void sets_several(uint16_t frozen) {
    const struct ctrie_pair three[3] = {{1, 12}, {4, 40}, {1, 13}};
    struct ctrie_pair many[64];
    uint64_t value = 99;
    for (uint64_t i = 0; i < 64; i++) many[i].key = 100 + i, many[i].value = i;
    TELL("put all", ctrie_put_all(&map, 0, three, 3), 0);
    TELL("put all", ctrie_put_all(&map, 0, many, 64), 0);
    TELL("put all", ctrie_put_all(&map, 0, NULL, 0), 0);
    TELL("put all of NULL", ctrie_put_all(&map, 0, NULL, 5), 0);
    TELL("put all of a frozen one", ctrie_put_all(&map, frozen, three, 3), 0);
    TELL("remove", ctrie_remove(&map, 0, 2, &value), value);
    compares(frozen, 0, 4);
    compares(0, frozen, 2);
    compares(0, 0, 4);
    TELL("diff", ctrie_diff(&map, frozen, 0, NULL, 0, &value), value);
    TELL("diff", ctrie_diff(&map, frozen, 9, NULL, 0, &value), value);
}

static void lists_handles(size_t room) {
    uint16_t handles[4] = {99, 99, 99, 99};
    uint32_t count = 99;
    TELL("open handles", ctrie_open_handles(&map, handles, room, &count), count);
    for (size_t i = 0; i < 4; i++) printf("  %u\n", (unsigned)handles[i]);
}

/* The value isn't written where NULL stands for its place. */
static void tells_no_value(void) {
    TELL("put", ctrie_put(&map, 0, 5, 50, NULL), 0);
    TELL("put", ctrie_put(&map, 0, 5, 51, NULL), 0);
    TELL("put if absent", ctrie_put_if_absent(&map, 0, 5, 52, NULL), 0);
    TELL("replace", ctrie_replace(&map, 0, 5, 53, NULL), 0);
    TELL("get", ctrie_get(&map, 0, 5, NULL), 0);
    TELL("remove", ctrie_remove(&map, 0, 5, NULL), 0);
    TELL("get", ctrie_get(&map, 0, 5, NULL), 0);
}

int main(void) {
    uint64_t value = 99;
    uint32_t number = 99;
    uint16_t copy = 99, frozen = 99, thawed = 99;
    struct ctrie_pair pair = {99, 99};
    printf("version %u\n", (unsigned)ctrie_version());
    printf("slots for 10 keys: %u\n", (unsigned)ctrie_slots_for(10));
    for (uint32_t code = 0; code <= CTRIE_NULL; code++) printf("code %u: %s\n", (unsigned)code, ctrie_error(code));
    TELL("get of no map", ctrie_get(&map, 0, 1, &value), value);
    lists_no_map();
    TELL("new of 2 slots", ctrie_new(&map, 2, CTRIE_WIDE), 0);
    TELL("new of no hash", ctrie_new(&map, 64, 4), 0);
    TELL("new", ctrie_new(&map, 64, CTRIE_WIDE), 0);
    TELL("new again", ctrie_new(&map, 64, CTRIE_WIDE), 0);
    TELL("get", ctrie_get(&map, 0, 1, &value), value);
    TELL("put", ctrie_put(&map, 0, 1, 10, &value), value);
    TELL("put", ctrie_put(&map, 0, 1, 11, &value), value);
    TELL("put", ctrie_put(&map, 0, UINT64_MAX, 7, &value), value);
    TELL("put if absent", ctrie_put_if_absent(&map, 0, 1, 12, &value), value);
    TELL("put if absent", ctrie_put_if_absent(&map, 0, 2, 20, &value), value);
    tells_no_value();
    TELL("freeze", ctrie_freeze(&map, 0, &frozen), frozen);
    TELL("snapshot", ctrie_snapshot(&map, 0, &copy), copy);
    TELL("replace", ctrie_replace(&map, copy, 1, 13, &value), value);
    TELL("replace", ctrie_replace(&map, copy, 3, 13, &value), value);
    TELL("replace if", ctrie_replace_if(&map, copy, 1, 11, 14), 0);
    TELL("replace if", ctrie_replace_if(&map, copy, 1, 13, 14), 0);
    TELL("remove", ctrie_remove(&map, copy, 2, &value), value);
    TELL("remove", ctrie_remove(&map, copy, 2, &value), value);
    TELL("remove if", ctrie_remove_if(&map, copy, 1, 13), 0);
    TELL("contains", ctrie_contains(&map, copy, 1), 0);
    TELL("remove if", ctrie_remove_if(&map, copy, 1, 14), 0);
    TELL("contains", ctrie_contains(&map, copy, 1), 0);
    TELL("clear", ctrie_clear(&map, 0), 0);
    TELL("clear of a frozen one", ctrie_clear(&map, frozen), 0);
    TELL("snapshot of a frozen one", ctrie_snapshot(&map, frozen, &thawed), thawed);
    TELL("count", ctrie_count(&map, 0, &value), value);
    TELL("count", ctrie_count(&map, copy, &value), value);
    TELL("count", ctrie_count(&map, thawed, &value), value);
    TELL("count", ctrie_count(&map, 9, &value), value);
    TELL("first", ctrie_first(&map, 0, &pair), pair.value);
    TELL("first", ctrie_first(&map, copy, &pair), pair.value);
    TELL("pop", ctrie_pop(&map, copy, &pair), pair.value);
    TELL("pop", ctrie_pop(&map, copy, &pair), pair.value);
    TELL("pop of a frozen one", ctrie_pop(&map, frozen, &pair), pair.value);
    TELL("handles", ctrie_handles(&map, &number), number);
    TELL("slots", ctrie_slots(&map, &number), number);
    lists(frozen, 2);
    lists(frozen, 4);
    lists(frozen, 0);
    TELL("is writable", ctrie_is_writable(&map, frozen), 0);
    TELL("is writable", ctrie_is_writable(&map, copy), 0);
    TELL("restore", ctrie_restore(&map, 0, frozen), 0);
    TELL("restore of a frozen one", ctrie_restore(&map, frozen, 0), 0);
    TELL("count", ctrie_count(&map, 0, &value), value);
    TELL("put", ctrie_put(&map, 0, 33, 330, NULL), 0);
    scans(0, 3);
    TELL("remove", ctrie_remove(&map, 0, 33, &value), value);
    TELL("is open", ctrie_is_open(&map, frozen), 0);
    TELL("is open", ctrie_is_open(&map, 9), 0);
    sets_several(frozen);
    lists_handles(4);
    lists_handles(2);
    TELL("open handles", ctrie_open_handles(&map, NULL, 0, &number), number);
    TELL("close", ctrie_close(&map, frozen), 0);
    TELL("close again", ctrie_close(&map, frozen), 0);
    TELL("close", ctrie_close(&map, copy), 0);
    ctrie_free(&map);
    ctrie_free(&map);
    TELL("free slots of no map", ctrie_free_slots(&map, &number), number);
    compares(0, 0, 0);
    lists_handles(1);
    return 0;
}
