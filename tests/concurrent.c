/* A concurrent map at size: `concurrent THREADS CALLS` has so many threads make so many calls together, on keys that all of
   them share and on keys of each one's own, with frozen copies among them. What they are told has to add up: of its own keys a
   thread knows each answer, in the map and in its copies; and of all calls the keys and values that came and didn't go are
   those that are there in the end. A call that is FULL, since another thread stands still in the midst of its own, is made again,
   and counted. The last thread may be FULL for good, since seats whose threads have ended keep slots: then it leaves the rest of
   its calls, which are counted too. Nothing is allocated by these calls, and at most a hundredth more is resident after all of
   them than after the first hundred thousand. `c` runs it. */
#include "memory.h"
#include <ctrie_concurrent.h>
#include <pthread.h>
#include <sched.h>
#include <stdatomic.h>
#include <string.h>

enum { MOST = 64, SHARED = 200, OWN = 20, KEYS = SHARED + MOST * OWN, FIRST = 100000, BETWEEN_COPIES = 500, OFTEN = 20 };

/* A call on one key, and what it told. */
enum kind { GET, PUT, PUT_IF_ABSENT, REPLACE, REPLACE_IF, REMOVE, REMOVE_IF, KINDS };

struct call {
    enum kind kind;
    uint64_t key, expected, value;
};

struct answer {
    bool yes;
    uint64_t before;
};

/* A thread, with what it knows. Values are from 1 on; 0 stands for none. */
struct worker {
    pthread_t thread;
    struct ctrie_concurrent_seat *seat;
    uint64_t number, drawn, made, last_key, last_value;
    uint64_t own[OWN];
    unsigned long calls;
    uint64_t sum, keys; /* of the values and keys that came less those that went */
    uint64_t full;      /* how often a call found no slot */
    unsigned often;     /* how often it did so last, one after the other */
    unsigned long left; /* the calls that it has left */
};

static struct ctrie_concurrent_seat seats[MOST];
static struct worker workers[MOST];
static unsigned threads;
static atomic_uint at_work;

static void fail(const char *what) {
    printf("%s\n", what);
    exit(1);
}

static bool told(uint32_t code) {
    if (CTRIE_REFUSED(code)) fail(ctrie_concurrent_error(code));
    return code == CTRIE_YES;
}

/* Whether the call is to be made again. Each time it has waited for slots. */
static bool was_full(struct worker *me, uint32_t code) {
    if (code != CTRIE_FULL) {
        me->often = 0;
        return false;
    }
    me->full++;
    if (++me->often >= OFTEN && atomic_load(&at_work) == 1) return false;
    sched_yield();
    return true;
}

/* Whether the thread leaves its calls, since the last one was FULL for good. */
static bool leaves(struct worker *me) { return me->often >= OFTEN; }

static uint64_t draw(struct worker *me) {
    me->drawn = me->drawn * 6364136223846793005u + 1442695040888963407u;
    return me->drawn >> 33;
}

/* What a call tells of a key with this value, and what becomes of it. */
static struct answer plain_answer(struct call call, uint64_t *at) {
    uint64_t before = *at;
    bool is_there = before != 0, is_expected = before == call.expected;
    switch (call.kind) {
    case PUT: *at = call.value; break;
    case PUT_IF_ABSENT: *at = is_there ? before : call.value; break;
    case REPLACE: *at = is_there ? call.value : 0; break;
    case REMOVE: *at = 0; break;
    case REPLACE_IF: *at = is_expected ? call.value : before; break;
    case REMOVE_IF: *at = is_expected ? 0 : before; break;
    default: break;
    }
    if (call.kind == REPLACE_IF || call.kind == REMOVE_IF) return (struct answer){is_expected, 0};
    return (struct answer){is_there, before};
}

static uint32_t made(struct ctrie_concurrent_seat *seat, struct call call, uint64_t *before) {
    switch (call.kind) {
    case PUT: return ctrie_concurrent_put(seat, 0, call.key, call.value, before);
    case PUT_IF_ABSENT: return ctrie_concurrent_put_if_absent(seat, 0, call.key, call.value, before);
    case REPLACE: return ctrie_concurrent_replace(seat, 0, call.key, call.value, before);
    case REMOVE: return ctrie_concurrent_remove(seat, 0, call.key, before);
    case REPLACE_IF: return ctrie_concurrent_replace_if(seat, 0, call.key, call.expected, call.value);
    case REMOVE_IF: return ctrie_concurrent_remove_if(seat, 0, call.key, call.expected);
    default: return ctrie_concurrent_get(seat, 0, call.key, before);
    }
}

static struct answer map_answer(struct worker *me, struct call call) {
    struct answer answer = {false, 0};
    uint32_t code;
    do code = made(me->seat, call, &answer.before);
    while (was_full(me, code));
    answer.yes = !leaves(me) && told(code);
    return answer;
}

/* What came by the call, and what went: each value is put once. */
static void add(struct worker *me, struct call call, struct answer answer) {
    bool puts = call.kind == PUT || (call.kind == PUT_IF_ABSENT && !answer.yes) ||
                (answer.yes && (call.kind == REPLACE || call.kind == REPLACE_IF));
    bool takes = answer.yes && call.kind != GET && call.kind != PUT_IF_ABSENT;
    bool tells_none = call.kind == REPLACE_IF || call.kind == REMOVE_IF;
    if (puts) me->sum += call.value;
    if (takes) me->sum -= tells_none ? call.expected : answer.before;
    me->keys += puts;
    me->keys -= takes;
}

/* One call on a key: about half of them on the thread's own. Where a value is expected, it is what the thread's last get of
   a shared key told, of that key; 1 where there was none, which no key ever has. */
static void call_once(struct worker *me) {
    uint64_t drawn = draw(me), own = drawn / 16 % OWN;
    struct call call = {(enum kind)(drawn / 2 % KINDS), drawn / 16 % SHARED, me->last_value, ++me->made * MOST + me->number};
    bool expects = call.kind == REPLACE_IF || call.kind == REMOVE_IF, is_own = drawn % 2 == 0 && !expects;
    struct answer answer, plain;
    if (expects) call.key = me->last_key;
    if (is_own) call.key = SHARED + me->number * OWN + own;
    answer = map_answer(me, call);
    if (leaves(me)) return;
    if (is_own) {
        plain = plain_answer(call, &me->own[own]);
        if (answer.yes != plain.yes || answer.before != plain.before) fail("a thread's own key is another");
    }
    if (call.kind == GET && !is_own) {
        me->last_key = call.key;
        me->last_value = answer.yes ? answer.before : 1;
    }
    add(me, call, answer);
}

/* A frozen copy, of the thread's own keys as they are; it is closed again. */
static void copy(struct worker *me) {
    uint64_t own, value;
    uint16_t frozen;
    uint32_t code;
    do code = ctrie_concurrent_freeze(me->seat, 0, &frozen);
    while (was_full(me, code));
    if (leaves(me)) return;
    told(code);
    for (own = 0; own < OWN; own++) {
        bool yes = told(ctrie_concurrent_get(me->seat, frozen, SHARED + me->number * OWN + own, &value));
        if (yes != (me->own[own] != 0) || (yes && value != me->own[own])) fail("a copy has another value");
    }
    told(ctrie_concurrent_close(me->seat, frozen));
}

static void *work(void *argument) {
    struct worker *me = argument;
    unsigned long made;
    for (made = 1; made <= me->calls && !leaves(me); made++) {
        call_once(me);
        if (made % BETWEEN_COPIES == 0 && !leaves(me)) copy(me);
    }
    me->left += me->calls + 1 - made;
    me->often = 0;
    atomic_fetch_sub(&at_work, 1);
    return NULL;
}

/* Has all threads make their share of so many calls on keys, and waits for them. */
static void run(unsigned long calls) {
    unsigned t;
    atomic_store(&at_work, threads);
    for (t = 0; t < threads; t++) {
        workers[t].calls = calls / threads;
        if (pthread_create(&workers[t].thread, NULL, work, &workers[t])) fail("a thread can't be made");
    }
    for (t = 0; t < threads; t++)
        if (pthread_join(workers[t].thread, NULL)) fail("a thread can't be joined");
}

/* Whether the keys and values that are there are those that came and didn't go. */
static void read_all(void) {
    static struct ctrie_pair pairs[KEYS];
    uint64_t many, i, sum = 0, keys = 0;
    uint16_t frozen;
    unsigned t;
    uint32_t code = CTRIE_FULL;
    for (t = 0; t < OFTEN * threads && code == CTRIE_FULL; t++) code = ctrie_concurrent_freeze(&seats[t % threads], 0, &frozen);
    told(code);
    told(ctrie_concurrent_entries(&seats[0], frozen, pairs, KEYS, &many));
    told(ctrie_concurrent_close(&seats[0], frozen));
    for (t = 0; t < threads; t++) {
        sum += workers[t].sum;
        keys += workers[t].keys;
    }
    if (many != keys) fail("keys are missing, or too many");
    for (i = 0; i < many; i++) sum -= pairs[i].value;
    if (sum != 0) fail("values are missing, or there twice");
}

int main(int words, char **word) {
    unsigned long calls = words == 3 ? strtoul(word[2], NULL, 10) : 0, taken, full = 0, left = 0, t;
    long few, many;
    threads = words == 3 ? (unsigned)strtoul(word[1], NULL, 10) : 0;
    if (threads < 1 || threads > MOST || calls <= FIRST) fail("concurrent THREADS CALLS: 1 to 64 threads, more than 100000 calls");
    /* Room for the map, and for a copy that each thread keeps open while all is changed, twice. */
    told(ctrie_concurrent_new(seats, threads, 2 * (threads + 1) * (SHARED + threads * OWN), CTRIE_WIDE));
    for (t = 0; t < threads; t++) {
        workers[t].seat = &seats[t];
        workers[t].number = t;
        workers[t].drawn = t;
        workers[t].last_value = 1;
    }
    taken = allocations;
    run(FIRST);
    taken = allocations - taken;
    read_all();
    resident(); /* what reads it is resident itself from here on */
    few = resident();
    taken -= allocations;
    run(calls - FIRST);
    taken += allocations;
    many = resident();
    read_all();
    for (t = 0; t < threads; t++) {
        full += workers[t].full;
        left += workers[t].left;
        ctrie_concurrent_free(&seats[t]);
    }
    printf("%lu calls by %u threads are told right, after %lu that were full, and %lu were left: %lu allocations, %ld kB resident after %d of "
           "them, %ld kB after all\n",
           calls - left, threads, full, left, taken, few, FIRST, many);
    return taken != 0 || left > calls / threads || many > few + few / 100;
}
