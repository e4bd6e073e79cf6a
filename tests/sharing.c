/* A map that threads share, at size: `sharing THREADS CALLS SHARDS` has so many threads make so many calls together, on
   keys that all of them share and on keys of each one's own, with frozen copies among them. What they are told has to add
   up: the first and the last hundred thousand calls are noted with the numbers that the map gives them, and in the order of
   these each answer is that of a plain map; of its own keys a thread knows each answer, in the map and in its copies; and of
   all calls the values that came and didn't go are those that are there in the end. Nothing is allocated by these calls, and
   at most a hundredth more is resident after all of them than after the first hundred thousand. `c` runs it. */
#include "memory.h"
#include <ctrie_shared.h>
#include <pthread.h>
#include <string.h>

enum { MOST = 64, SHARED = 200, OWN = 20, KEYS = SHARED + MOST * OWN, SLOTS = 65536, SAMPLE = 100000, BETWEEN_COPIES = 500 };

/* A call on one key, and what it told. */
enum kind { GET, PUT, PUT_IF_ABSENT, REPLACE, REPLACE_IF, REMOVE, REMOVE_IF, KINDS };

struct call {
    enum kind kind;
    uint64_t key, expected, value;
};

struct answer {
    bool yes;
    uint64_t before;
};

/* A call with its number among all calls about the key's shard. */
struct note {
    struct ctrie_count at;
    struct call call;
    struct answer answer;
};

/* A thread, with what it knows. Values are from 1 on; 0 stands for none. */
struct worker {
    pthread_t thread;
    struct ctrie_seat *seat;
    uint64_t number, drawn, made, last_key, last_value;
    uint64_t own[OWN];
    unsigned long calls;
    uint64_t sum, keys; /* of the values and keys that came less those that went */
    struct note *notes; /* NULL where nothing is noted */
    size_t noted;
};

static struct ctrie_seat seats[MOST];
static struct worker workers[MOST];
static unsigned threads;
static struct note notes[SAMPLE];

static void fail(const char *what) {
    printf("%s\n", what);
    exit(1);
}

static bool told(uint32_t code) {
    if (CTRIE_REFUSED(code)) fail(ctrie_shared_error(code));
    return code == CTRIE_YES;
}

static uint64_t draw(struct worker *me) {
    me->drawn = me->drawn * 6364136223846793005u + 1442695040888963407u;
    return me->drawn >> 33;
}

/* What a call tells of a key with this value, and what becomes of it. */
static struct answer plain_answer(struct call call, uint64_t *at) {
    uint64_t before = *at;
    bool is_there = before != 0, is_expected = before == call.expected;
    switch (call.kind) {
    case PUT: *at = call.value; break;
    case PUT_IF_ABSENT: *at = is_there ? before : call.value; break;
    case REPLACE: *at = is_there ? call.value : 0; break;
    case REMOVE: *at = 0; break;
    case REPLACE_IF: *at = is_expected ? call.value : before; break;
    case REMOVE_IF: *at = is_expected ? 0 : before; break;
    default: break;
    }
    if (call.kind == REPLACE_IF || call.kind == REMOVE_IF) return (struct answer){is_expected, 0};
    return (struct answer){is_there, before};
}

static struct answer map_answer(struct ctrie_seat *seat, struct call call) {
    struct answer answer = {false, 0};
    uint64_t *before = &answer.before;
    switch (call.kind) {
    case PUT: answer.yes = told(ctrie_shared_put(seat, 0, call.key, call.value, before)); break;
    case PUT_IF_ABSENT: answer.yes = told(ctrie_shared_put_if_absent(seat, 0, call.key, call.value, before)); break;
    case REPLACE: answer.yes = told(ctrie_shared_replace(seat, 0, call.key, call.value, before)); break;
    case REMOVE: answer.yes = told(ctrie_shared_remove(seat, 0, call.key, before)); break;
    case REPLACE_IF: answer.yes = told(ctrie_shared_replace_if(seat, 0, call.key, call.expected, call.value)); break;
    case REMOVE_IF: answer.yes = told(ctrie_shared_remove_if(seat, 0, call.key, call.expected)); break;
    default: answer.yes = told(ctrie_shared_get(seat, 0, call.key, before));
    }
    return answer;
}

static bool are_same(struct answer one, struct answer other) {
    return one.yes == other.yes && one.before == other.before;
}

/* What came by the call, and what went: each value is put once. */
static void add(struct worker *me, struct call call, struct answer answer) {
    bool puts = call.kind == PUT || (call.kind == PUT_IF_ABSENT && !answer.yes) ||
                (answer.yes && (call.kind == REPLACE || call.kind == REPLACE_IF));
    bool takes = answer.yes && call.kind != GET && call.kind != PUT_IF_ABSENT;
    bool tells_none = call.kind == REPLACE_IF || call.kind == REMOVE_IF;
    if (puts) me->sum += call.value;
    if (takes) me->sum -= tells_none ? call.expected : answer.before;
    me->keys += puts;
    me->keys -= takes;
}

/* One call on a key: about half of them on the thread's own. Where a value is expected, it is what the thread's last get of
   a shared key told, of that key; 1 where there was none, which no key ever has. */
static void call_once(struct worker *me) {
    uint64_t drawn = draw(me), own = drawn / 16 % OWN;
    struct call call = {(enum kind)(drawn / 2 % KINDS), drawn / 16 % SHARED, me->last_value, ++me->made * MOST + me->number};
    bool expects = call.kind == REPLACE_IF || call.kind == REMOVE_IF, is_own = drawn % 2 == 0 && !expects;
    struct answer answer;
    if (expects) call.key = me->last_key;
    if (is_own) call.key = SHARED + me->number * OWN + own;
    answer = map_answer(me->seat, call);
    if (is_own && !are_same(answer, plain_answer(call, &me->own[own]))) fail("a thread's own key is another");
    if (call.kind == GET && !is_own) {
        me->last_key = call.key;
        me->last_value = answer.yes ? answer.before : 1;
    }
    add(me, call, answer);
    if (!me->notes) return;
    me->notes[me->noted].call = call;
    me->notes[me->noted].answer = answer;
    told(ctrie_shared_last(me->seat, &me->notes[me->noted++].at));
}

/* A frozen copy, open and read-only, of the thread's own keys as they are, whose first pair is one of its pairs; it is closed
   again. */
static void copy(struct worker *me) {
    uint64_t own, value;
    uint16_t frozen;
    struct ctrie_pair first;
    told(ctrie_shared_freeze(me->seat, 0, &frozen));
    if (!told(ctrie_shared_is_open(me->seat, frozen)) || told(ctrie_shared_is_writable(me->seat, frozen))) fail("a copy isn't frozen");
    if (told(ctrie_shared_first(me->seat, frozen, &first)) &&
        (!told(ctrie_shared_get(me->seat, frozen, first.key, &value)) || value != first.value)) fail("a copy's first pair isn't there");
    for (own = 0; own < OWN; own++) {
        bool yes = told(ctrie_shared_get(me->seat, frozen, SHARED + me->number * OWN + own, &value));
        if (yes != (me->own[own] != 0) || (yes && value != me->own[own])) fail("a copy has another value");
    }
    told(ctrie_shared_close(me->seat, frozen));
}

static void *work(void *argument) {
    struct worker *me = argument;
    unsigned long made;
    for (made = 1; made <= me->calls; made++) {
        call_once(me);
        if (made % BETWEEN_COPIES == 0) copy(me);
    }
    return NULL;
}

/* Has all threads make their share of so many calls on keys, and waits for them. */
static void run(unsigned long calls, bool noting) {
    unsigned t;
    for (t = 0; t < threads; t++) {
        workers[t].calls = calls / threads;
        workers[t].notes = noting ? notes + t * (calls / threads) : NULL;
        workers[t].noted = 0;
        if (pthread_create(&workers[t].thread, NULL, work, &workers[t])) fail("a thread can't be made");
    }
    for (t = 0; t < threads; t++)
        if (pthread_join(workers[t].thread, NULL)) fail("a thread can't be joined");
}

static int in_order(const void *one, const void *other) {
    struct ctrie_count a = ((const struct note *)one)->at, b = ((const struct note *)other)->at;
    if (a.shard != b.shard) return a.shard < b.shard ? -1 : 1;
    return a.calls < b.calls ? -1 : a.calls > b.calls;
}

/* Plays the noted calls in their order on a map that has these values. */
static void replay(uint64_t *values) {
    size_t many = SAMPLE / threads * threads, i;
    qsort(notes, many, sizeof *notes, in_order);
    for (i = 0; i < many; i++) {
        if (i > 0 && in_order(&notes[i - 1], &notes[i]) >= 0) fail("two calls have one number");
        if (!are_same(notes[i].answer, plain_answer(notes[i].call, &values[notes[i].call.key]))) fail("a plain map answers otherwise");
    }
}

/* The value of each key, and whether they are those that came and didn't go. */
static void read_all(uint64_t *values) {
    static struct ctrie_pair pairs[KEYS];
    uint64_t many, i, sum = 0, keys = 0;
    unsigned t;
    memset(values, 0, KEYS * sizeof *values);
    told(ctrie_shared_entries(&seats[0], 0, pairs, KEYS, &many));
    for (t = 0; t < threads; t++) {
        sum += workers[t].sum;
        keys += workers[t].keys;
    }
    if (many != keys) fail("keys are missing, or too many");
    for (i = 0; i < many; i++) {
        values[pairs[i].key] = pairs[i].value;
        sum -= pairs[i].value;
    }
    if (sum != 0) fail("values are missing, or there twice");
}

int main(int words, char **word) {
    static uint64_t values[KEYS], last[KEYS];
    unsigned long calls = words == 4 ? strtoul(word[2], NULL, 10) : 0, taken, t;
    long few, many;
    threads = words == 4 ? (unsigned)strtoul(word[1], NULL, 10) : 0;
    if (threads < 1 || threads > MOST || calls < 2 * SAMPLE) fail("sharing THREADS CALLS SHARDS: 1 to 64 threads, 200000 calls or more");
    t = strtoul(word[3], NULL, 10);
    told(ctrie_shared_new(seats, threads, (uint32_t)(SLOTS / (t ? t : 1)), CTRIE_FOLD, (uint8_t)t));
    for (t = 0; t < threads; t++) {
        workers[t].seat = &seats[t];
        workers[t].number = t;
        workers[t].drawn = t;
        workers[t].last_value = 1;
    }
    memset(notes, 1, sizeof notes);
    taken = allocations;
    run(SAMPLE, true);
    taken = allocations - taken;
    replay(values);
    read_all(last);
    if (memcmp(values, last, sizeof values) != 0) fail("the plain map has other values");
    resident(); /* what reads it is resident itself from here on */
    few = resident();

    taken -= allocations;
    run(calls - 2 * SAMPLE, false);
    taken += allocations;
    read_all(values);
    taken -= allocations;
    run(SAMPLE, true);
    taken += allocations;
    many = resident();
    replay(values);
    read_all(last);
    if (memcmp(values, last, sizeof values) != 0) fail("the plain map has other values");
    for (t = 0; t < threads; t++) ctrie_shared_free(&seats[t]);
    printf("%lu calls by %u threads over %s shards are told right: %lu allocations, %ld kB resident after %d of them, %ld kB after all\n", calls,
           threads, word[3], taken, few, SAMPLE, many);
    return taken != 0 || many > few + few / 100;
}
