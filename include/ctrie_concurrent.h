/*
 * A map that threads share with no lock.
 *
 * A map is used through seats, one a thread. Each call is made in single atomic steps; calls of different seats may
 * overlap, and one order explains them all. (The contracts say so where the seats of a map are ended,
 * ConcurrentMap::finish, a call that C hasn't.) A thread that is stopped in the midst of a call keeps no other one from
 * its calls, but that until it goes on the call's handle can't be closed, and slots that are given up aren't used again
 * (tested, and not proved). A copy by ctrie_concurrent_freeze is of one moment, and is counted and listed while others
 * go on. All memory is taken when the map is made; only a count and a list take some of their own.
 *
 *     struct ctrie_concurrent_seat seats[4] = {CTRIE_NO_SEAT, CTRIE_NO_SEAT, CTRIE_NO_SEAT, CTRIE_NO_SEAT};
 *     if (ctrie_concurrent_new(seats, 4, 1000, CTRIE_WIDE) != CTRIE_DONE) return 1; // for 1,000 keys
 *     ... each thread has one of them: ctrie_concurrent_put(&seats[i], 0, 7, 250, NULL) ...
 *     for (int i = 0; i < 4; i++) ctrie_concurrent_free(&seats[i]);
 *
 * The slots of what is replaced or removed are used again, once all calls have ended that were under way when they were given
 * up. A call that finds no slot waits where some that its seat has given up are to be free soon; where it has waited in vain, or
 * there are none, it is FULL. That may be so while other seats have free slots: each keeps some for its next calls. A map has
 * room for as many keys as it was made for, where they are random or follow one another; ask for twice as many where they lie
 * evenly, as multiples of 16 do, and for a copy beside it, of which all is overwritten. (All this is tested, and not proved.)
 * Some calls are refused all the same: a seat whose thread has ended, or rests, keeps the few free slots that it holds for its
 * next calls, and those of what its last calls have replaced, so others may be FULL until it makes calls again.
 *
 * Against a map in shards (ctrie_shared.h) this one has no restore, scan, first or hear, and counts and lists read-only
 * copies alone.
 *
 * Which call may be made from where: as ctrie_shared.h says of its seats. What ctrie.h says of pointers, codes and handles
 * holds here too, but that a new handle may have any number from 0 to 255 that isn't open, so a number that was closed may
 * name another copy at once.
 */
#ifndef CTRIE_CONCURRENT_H
#define CTRIE_CONCURRENT_H

#include <ctrie_shared.h>

#ifdef __cplusplus
extern "C" {
#endif

/* Holds a seat at a concurrent map, or none (CTRIE_NO_SEAT). */
struct ctrie_concurrent_seat {
    void *at;
};

enum ctrie_concurrent_code {
    CTRIE_NOT_READ_ONLY = 10, /* a count or a list by a handle that isn't that of a read-only copy */
    CTRIE_AGAIN = 17,         /* a call in a number of tries: it is under way */
    CTRIE_SPENT = 18          /* a call in a number of tries: it isn't over, and nothing of it is under way */
};

/* ---- the calls in a number of tries: each loop of such a call takes so many at most, so it ends whatever other threads do.
   Where they are used up and the call is under way it answers AGAIN: make the same call again, with the same handle, key and
   values, until it answers otherwise; however often, it is one call, and the answer is its answer. Until then the seat answers
   BUSY to any other call; a contains is the same call as a get of the key, and a count or a list is never under way. It
   answers SPENT where the tries are used up and nothing of it is under way, or no slot was free while some that the seat has
   given up are to be free soon: no map has changed, and the seat may make any call, this one too. The calls below, of the same
   names without try, go on so to the end. A get or contains takes no try where nothing stands in its way. The way down to a
   key takes a try for each level, and has up to 14: with fewer tries a call may be SPENT for ever, so take some hundred or
   more. For the place of a value NULL may not stand here. NO_MAP where no seat is held; the other codes stand at the calls
   below. */

CTRIE_MUST_USE
uint32_t ctrie_concurrent_try_get(struct ctrie_concurrent_seat *seat, uint64_t tries, uint16_t handle, uint64_t key,
                                  uint64_t *value);
CTRIE_MUST_USE
uint32_t ctrie_concurrent_try_contains(struct ctrie_concurrent_seat *seat, uint64_t tries, uint16_t handle,
                                       uint64_t key);
CTRIE_MUST_USE
uint32_t ctrie_concurrent_try_put(struct ctrie_concurrent_seat *seat, uint64_t tries, uint16_t handle, uint64_t key,
                                  uint64_t value, uint64_t *before);
CTRIE_MUST_USE
uint32_t ctrie_concurrent_try_put_if_absent(struct ctrie_concurrent_seat *seat, uint64_t tries, uint16_t handle,
                                            uint64_t key, uint64_t value, uint64_t *before);
CTRIE_MUST_USE
uint32_t ctrie_concurrent_try_replace(struct ctrie_concurrent_seat *seat, uint64_t tries, uint16_t handle,
                                      uint64_t key, uint64_t value, uint64_t *before);
CTRIE_MUST_USE
uint32_t ctrie_concurrent_try_replace_if(struct ctrie_concurrent_seat *seat, uint64_t tries, uint16_t handle,
                                         uint64_t key, uint64_t before, uint64_t value);
CTRIE_MUST_USE
uint32_t ctrie_concurrent_try_remove(struct ctrie_concurrent_seat *seat, uint64_t tries, uint16_t handle,
                                     uint64_t key, uint64_t *before);
CTRIE_MUST_USE
uint32_t ctrie_concurrent_try_remove_if(struct ctrie_concurrent_seat *seat, uint64_t tries, uint16_t handle,
                                        uint64_t key, uint64_t value);
CTRIE_MUST_USE
uint32_t ctrie_concurrent_try_clear(struct ctrie_concurrent_seat *seat, uint64_t tries, uint16_t handle);
CTRIE_MUST_USE
uint32_t ctrie_concurrent_try_snapshot(struct ctrie_concurrent_seat *seat, uint64_t tries, uint16_t handle,
                                       uint16_t *copy);
CTRIE_MUST_USE
uint32_t ctrie_concurrent_try_freeze(struct ctrie_concurrent_seat *seat, uint64_t tries, uint16_t handle,
                                     uint16_t *copy);
CTRIE_MUST_USE
uint32_t ctrie_concurrent_try_count(struct ctrie_concurrent_seat *seat, uint64_t tries, uint16_t handle,
                                    uint64_t *count);
CTRIE_MUST_USE
uint32_t ctrie_concurrent_try_entries(struct ctrie_concurrent_seat *seat, uint64_t tries, uint16_t handle,
                                      struct ctrie_pair *pairs, size_t room, uint64_t *count);

/* Goes on with the call of the seat that is under way, if one is. DONE where none is any more; AGAIN where it still is;
   NO_MAP. The call's answer is lost: this is for a thread that no longer wants it, and wants its seat for other calls. */
CTRIE_MUST_USE
uint32_t ctrie_concurrent_try_settle(struct ctrie_concurrent_seat *seat, uint64_t tries);

/* ---- a map and its seats */

/* Makes a map with room for this number of keys, and this number of seats at it, from 1 to 255: it takes 52 to 68 bytes a
   key, 16 kB a seat and 15 kB, and less for fewer than 80 keys. The struct holds one seat, which hands out the others. DONE;
   BAD_HASH, before all others; HAS_MAP where it holds one already; BAD_SIZES exactly where there is to be no seat, or there
   would be more than 2^28 words of 8 bytes, as for some 38,000,000 keys; else MEMORY, where that is refused. Where it isn't
   DONE the struct holds what it held. */
CTRIE_MUST_USE
uint32_t ctrie_concurrent_open(struct ctrie_concurrent_seat *seat, uint32_t keys, uint32_t hash, uint8_t seats);

/* Hands out one of the seats that the first struct still has, to the second. DONE; HAS_MAP where the second holds one,
   before all others; NO_MAP where the first holds none; NO_SEATS where none is left; MEMORY. */
CTRIE_MUST_USE
uint32_t ctrie_concurrent_split(struct ctrie_concurrent_seat *seat, struct ctrie_concurrent_seat *other);

/* Frees the seat, if one is held, with those that it has not handed out. None is held then. The map is freed with the last of
   its seats. A call of the seat that is under way stays so for ever: its handle can't be closed any more, and no slot that is
   given up from then on is used again; ctrie_concurrent_free ends the call first. */
void ctrie_concurrent_drop(struct ctrie_concurrent_seat *seat);

/* Closes the handle, at once or not at all: DONE; NO_MAP; BUSY where a call of this seat is under way, or another seat is in a
   call on the handle or about to close it, or hasn't returned from the call that opens it; NO_HANDLE. Where it isn't DONE
   nothing is closed. */
CTRIE_MUST_USE
uint32_t ctrie_concurrent_close(struct ctrie_concurrent_seat *seat, uint16_t handle);

/* In how many tries a call is made before its thread lets others run. */
#define CTRIE_TRIES 1000

/* How often a call that was SPENT is made again, which takes some seconds, before it is FULL. */
#define CTRIE_PATIENCE 1000000

/* Makes this call until it is over, or has waited for slots in vain. */
#define CTRIE_CONCURRENT_CALL(call)                                                       \
    do {                                                                                  \
        uint32_t ctrie_waits = 0, ctrie_spent = 0, ctrie_answer;                          \
        for (;;) {                                                                        \
            ctrie_answer = (call);                                                        \
            if (ctrie_answer == CTRIE_SPENT && ctrie_spent++ == CTRIE_PATIENCE)           \
                return CTRIE_FULL;                                                        \
            if (ctrie_answer != CTRIE_SPENT && ctrie_answer != CTRIE_AGAIN)               \
                return ctrie_answer;                                                      \
            ctrie_shared_wait(&ctrie_waits);                                              \
        }                                                                                 \
    } while (0)

/* Makes this count or list until it is over. */
#define CTRIE_CONCURRENT_WALK(walk)                    \
    do {                                               \
        uint32_t ctrie_waits = 0, ctrie_answer;        \
        while ((ctrie_answer = (walk)) == CTRIE_SPENT) \
            ctrie_shared_wait(&ctrie_waits);           \
        return ctrie_answer;                           \
    } while (0)

/* As ctrie_concurrent_drop, once the call of the seat that is under way, if one is, has come to its end. */
static inline void ctrie_concurrent_free(struct ctrie_concurrent_seat *seat) {
    uint32_t waits = 0;
    while (ctrie_concurrent_try_settle(seat, CTRIE_TRIES) == CTRIE_AGAIN) ctrie_shared_wait(&waits);
    ctrie_concurrent_drop(seat);
}

/* Makes a map with room for these keys, and gives each of these structs, which hold none, a seat at it. DONE; HAS_MAP where one
   of them holds one, before all others; NO_SEATS where there are none or more than 255; else as ctrie_concurrent_open. Where
   it isn't DONE all that was made is freed. */
CTRIE_MUST_USE
static inline uint32_t ctrie_concurrent_new(struct ctrie_concurrent_seat *seats, size_t count, uint32_t keys, uint32_t hash) {
    uint32_t code;
    size_t made;
    for (made = 0; made < count; made++)
        if (seats[made].at) return CTRIE_HAS_MAP;
    if (count == 0 || count > 255) return CTRIE_NO_SEATS;
    code = ctrie_concurrent_open(&seats[0], keys, hash, CTRIE_BYTE(count));
    for (made = 1; code == CTRIE_DONE && made < count; made++) code = ctrie_concurrent_split(&seats[0], &seats[made]);
    if (code != CTRIE_DONE)
        for (made = 0; made < count; made++) ctrie_concurrent_drop(&seats[made]);
    return code;
}

/* What a code says, in a few words. */
static inline const char *ctrie_concurrent_error(uint32_t code) {
    switch (code) {
    case CTRIE_BAD_SIZES: return "the number of keys is out of range";
    case CTRIE_WORN_OUT: return "no copy or clear is left to the map";
    case CTRIE_NOT_READ_ONLY: return "the handle isn't that of a read-only copy";
    case CTRIE_BUSY: return "another seat is in a call on the handle, or another call of the seat is under way";
    case CTRIE_AGAIN: return "the call is under way";
    case CTRIE_SPENT: return "the call isn't over, and nothing of it is under way";
    default: return ctrie_shared_error(code);
    }
}

/* ---- the calls that go on to their end. NO_MAP where no seat is held; BUSY where another call of the seat, one in a number of
   tries, is under way; and as each says. One that is refused has changed no map */

/* YES with the key's value, or NO; for the value's place NULL may stand. NO_HANDLE; FULL, where the way to the key is to be
   renewed first, after a copy was made. */
CTRIE_MUST_USE
static inline uint32_t ctrie_concurrent_get(struct ctrie_concurrent_seat *seat, uint16_t handle, uint64_t key,
                                            uint64_t *value) {
    uint64_t unwanted;
    CTRIE_CONCURRENT_CALL(ctrie_concurrent_try_get(seat, CTRIE_TRIES, handle, key, value ? value : &unwanted));
}

/* YES where the key has a value, else NO. As ctrie_concurrent_get. */
CTRIE_MUST_USE
static inline uint32_t ctrie_concurrent_contains(struct ctrie_concurrent_seat *seat, uint16_t handle, uint64_t key) {
    CTRIE_CONCURRENT_CALL(ctrie_concurrent_try_contains(seat, CTRIE_TRIES, handle, key));
}

/* As ctrie_put: NO_HANDLE, READ_ONLY, CROWDED, FULL. */
CTRIE_MUST_USE
static inline uint32_t ctrie_concurrent_put(struct ctrie_concurrent_seat *seat, uint16_t handle, uint64_t key,
                                            uint64_t value, uint64_t *before) {
    uint64_t unwanted;
    CTRIE_CONCURRENT_CALL(ctrie_concurrent_try_put(seat, CTRIE_TRIES, handle, key, value, before ? before : &unwanted));
}

/* As ctrie_put_if_absent: NO_HANDLE, READ_ONLY, CROWDED, FULL. */
CTRIE_MUST_USE
static inline uint32_t ctrie_concurrent_put_if_absent(struct ctrie_concurrent_seat *seat, uint16_t handle,
                                                      uint64_t key, uint64_t value, uint64_t *before) {
    uint64_t unwanted;
    CTRIE_CONCURRENT_CALL(ctrie_concurrent_try_put_if_absent(seat, CTRIE_TRIES, handle, key, value,
                                                             before ? before : &unwanted));
}

/* As ctrie_replace: NO_HANDLE, READ_ONLY, FULL. */
CTRIE_MUST_USE
static inline uint32_t ctrie_concurrent_replace(struct ctrie_concurrent_seat *seat, uint16_t handle, uint64_t key,
                                                uint64_t value, uint64_t *before) {
    uint64_t unwanted;
    CTRIE_CONCURRENT_CALL(ctrie_concurrent_try_replace(seat, CTRIE_TRIES, handle, key, value,
                                                       before ? before : &unwanted));
}

/* As ctrie_replace_if: NO_HANDLE, READ_ONLY, FULL. A counter is a get and this, again where it answers NO; and a
   put_if_absent where the get answers NO. */
CTRIE_MUST_USE
static inline uint32_t ctrie_concurrent_replace_if(struct ctrie_concurrent_seat *seat, uint16_t handle, uint64_t key,
                                                   uint64_t before, uint64_t value) {
    CTRIE_CONCURRENT_CALL(ctrie_concurrent_try_replace_if(seat, CTRIE_TRIES, handle, key, before, value));
}

/* As ctrie_remove: NO_HANDLE, READ_ONLY, FULL. */
CTRIE_MUST_USE
static inline uint32_t ctrie_concurrent_remove(struct ctrie_concurrent_seat *seat, uint16_t handle, uint64_t key,
                                               uint64_t *before) {
    uint64_t unwanted;
    CTRIE_CONCURRENT_CALL(ctrie_concurrent_try_remove(seat, CTRIE_TRIES, handle, key, before ? before : &unwanted));
}

/* As ctrie_remove_if: NO_HANDLE, READ_ONLY, FULL. Of all that remove what they have found one alone is answered YES. */
CTRIE_MUST_USE
static inline uint32_t ctrie_concurrent_remove_if(struct ctrie_concurrent_seat *seat, uint16_t handle, uint64_t key,
                                                  uint64_t value) {
    CTRIE_CONCURRENT_CALL(ctrie_concurrent_try_remove_if(seat, CTRIE_TRIES, handle, key, value));
}

/* As ctrie_clear: NO_HANDLE, READ_ONLY, FULL; WORN_OUT, which a map is for copies and clears alone, after some 2^35 of them. */
CTRIE_MUST_USE
static inline uint32_t ctrie_concurrent_clear(struct ctrie_concurrent_seat *seat, uint16_t handle) {
    CTRIE_CONCURRENT_CALL(ctrie_concurrent_try_clear(seat, CTRIE_TRIES, handle));
}

/* As ctrie_snapshot, but of a handle that may be written: NO_HANDLE, READ_ONLY, HANDLES_FULL, FULL, WORN_OUT. */
CTRIE_MUST_USE
static inline uint32_t ctrie_concurrent_snapshot(struct ctrie_concurrent_seat *seat, uint16_t handle, uint16_t *copy) {
    CTRIE_CONCURRENT_CALL(ctrie_concurrent_try_snapshot(seat, CTRIE_TRIES, handle, copy));
}

/* As ctrie_freeze, but of a handle that may be written: NO_HANDLE, READ_ONLY, HANDLES_FULL, FULL, WORN_OUT. */
CTRIE_MUST_USE
static inline uint32_t ctrie_concurrent_freeze(struct ctrie_concurrent_seat *seat, uint16_t handle, uint16_t *copy) {
    CTRIE_CONCURRENT_CALL(ctrie_concurrent_try_freeze(seat, CTRIE_TRIES, handle, copy));
}

/* DONE with how many keys of a read-only copy have a value. It takes a little memory. NO_HANDLE, NOT_READ_ONLY, MEMORY. */
CTRIE_MUST_USE
static inline uint32_t ctrie_concurrent_count(struct ctrie_concurrent_seat *seat, uint16_t handle, uint64_t *count) {
    CTRIE_CONCURRENT_WALK(ctrie_concurrent_try_count(seat, CTRIE_TRIES, handle, count));
}

/* DONE with how many keys of a read-only copy have a value; the first of them are written with their values in ascending
   order of keys, as many as there is room for. It takes memory for all. NO_HANDLE, NOT_READ_ONLY, MEMORY. */
CTRIE_MUST_USE
static inline uint32_t ctrie_concurrent_entries(struct ctrie_concurrent_seat *seat, uint16_t handle,
                                                struct ctrie_pair *pairs, size_t room, uint64_t *count) {
    CTRIE_CONCURRENT_WALK(ctrie_concurrent_try_entries(seat, CTRIE_TRIES, handle, pairs, room, count));
}

#ifdef __cplusplus
}
#endif

#endif
