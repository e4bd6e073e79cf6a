/* Makes and frees a map of 65,536 slots again and again; then shared ones of as many slots in eight shards, with all their
   seats; and then concurrent ones, some seats of which weren't handed out. `c` runs it where there is memory for few of them. */
#include <ctrie_concurrent.h>
#include <stdio.h>

enum { MAPS = 200, SLOTS = 65536, SHARDS = 8, SEATS = 4, KEYS = 400000 };

/* Whether a map was made; its answer is written where it wasn't. */
static bool is_made(const char *call, uint32_t code, int made) {
    if (code != CTRIE_DONE) printf("%s answered %u after %d maps\n", call, (unsigned)code, made);
    return code == CTRIE_DONE;
}

int main(void) {
    struct ctrie map = CTRIE_NONE;
    struct ctrie_seat seats[SEATS] = {CTRIE_NO_SEAT, CTRIE_NO_SEAT, CTRIE_NO_SEAT, CTRIE_NO_SEAT};
    struct ctrie_concurrent_seat first = CTRIE_NO_SEAT, second = CTRIE_NO_SEAT;
    for (int made = 0; made < MAPS; made++) {
        if (!is_made("ctrie_new", ctrie_new(&map, SLOTS, CTRIE_WIDE), made)) return 1;
        ctrie_free(&map);
    }
    for (int made = 0; made < MAPS; made++) {
        if (!is_made("ctrie_shared_new", ctrie_shared_new(seats, SEATS, SLOTS / SHARDS, CTRIE_WIDE, SHARDS), made)) return 1;
        for (int seat = 0; seat < SEATS; seat++) ctrie_shared_free(&seats[seat]);
    }
    for (int made = 0; made < MAPS; made++) {
        if (!is_made("ctrie_concurrent_open", ctrie_concurrent_open(&first, KEYS, CTRIE_WIDE, SEATS), made)) return 1;
        if (!is_made("ctrie_concurrent_split", ctrie_concurrent_split(&first, &second), made)) return 1;
        ctrie_concurrent_free(&first);
        ctrie_concurrent_free(&second);
    }
    return 0;
}
