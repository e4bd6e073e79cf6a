/* held.c: threads of a program are held by a signal in the midst of calls, at random places, while others go on. It is linked with a program
   whose workers call work_begins() first and work_ends() last, in which each call begins with call_begins() and ends with call_ends(), and each
   atomic access is preceded by before_access(). Some of the signals a worker sends itself before an access; the others are sent at any time, by a
   thread that watches. The handler stays until the others have made a drawn number of calls, or have come to their end. One of them always goes
   on. No worker is held before the first access of a call, nor inside of malloc, for whose lock others would wait.

   HELD_SEED is what all is drawn from; HELD_EVERY how many accesses lie between two holds of either kind, where one of a call of some weight
   counts as so many; HELD_CALLS how many calls a hold takes at most. Into the file HELD_TOLD a line is written for each hold when the program
   ends, and how many calls ended while a worker was held. Where a call goes on and on, standard error says so, and the status is 9. */
#define _GNU_SOURCE
#include <errno.h>
#include <pthread.h>
#include <sched.h>
#include <signal.h>
#include <stdatomic.h>
#include <stdint.h>
#include <stdio.h>
#include <stdlib.h>
#include <time.h>

/* A call that makes so many accesses has no end; a thousandth of it would be many. Where a worker is held and there is no access for so long,
   the others wait for it. */
enum { MOST_ACCESSES = 10000000, MOST_SECONDS = 20, MOST_NAPS = 10000 };
enum { MOST = 64, MOST_HOLDS = 4096 };

struct hold {
    const char *call;
    int is_sent;
    uint64_t calls;
};

struct worker {
    pthread_t thread;
    uint64_t places, lengths, left, weight;
    atomic_int is_at_work, is_held;
    atomic_uint_fast64_t calls, meanwhile, accesses, accesses_of_call;
    const char *_Atomic call;
    volatile sig_atomic_t is_in_call, is_in_malloc, sends;
    int holds;
    struct hold held[MOST_HOLDS];
};

static struct worker workers[MOST];
static _Thread_local struct worker *self;
/* How many workers there are; how many of them are at work and not held; how many are held. */
static atomic_int count, going, held;
static uint64_t seed, every, most;
static pthread_mutex_t sending = PTHREAD_MUTEX_INITIALIZER;
static pthread_once_t once = PTHREAD_ONCE_INIT;

void __real__exit(int status);
void *__real_malloc(size_t size);
void *__real_realloc(void *at, size_t size);
void __real_free(void *at);

static uint64_t draw(uint64_t *drawn) {
    *drawn ^= *drawn << 13;
    *drawn ^= *drawn >> 7;
    *drawn ^= *drawn << 17;
    return *drawn >> 20;
}

static uint64_t started(uint64_t number) {
    uint64_t drawn = (seed * MOST * 2 + number) * 0x9E3779B97F4A7C15u | 1;
    for (int n = 0; n < 8; n++) draw(&drawn);
    return drawn;
}

static uint64_t number_in(const char *name) {
    const char *text = getenv(name);
    return text && *text ? strtoull(text, NULL, 10) : 1;
}

static void nap(long microseconds) {
    struct timespec time = {0, microseconds * 1000};
    nanosleep(&time, NULL);
}

/* One more of what the own thread alone counts. */
static void add(atomic_uint_fast64_t *to) {
    atomic_store_explicit(to, atomic_load_explicit(to, memory_order_relaxed) + 1, memory_order_relaxed);
}

static uint64_t all_calls(void) {
    uint64_t sum = 0;
    for (int n = 0; n < atomic_load(&count); n++) sum += atomic_load_explicit(&workers[n].calls, memory_order_relaxed);
    return sum;
}

static uint64_t all_accesses(void) {
    uint64_t sum = 0;
    for (int n = 0; n < atomic_load(&count); n++) sum += atomic_load_explicit(&workers[n].accesses, memory_order_relaxed);
    return sum;
}

/* Whether this worker may be held, since another one goes on; then it counts as held. */
static int may_stay(void) {
    int now = atomic_load(&going);
    while (now > 1)
        if (atomic_compare_exchange_weak(&going, &now, now - 1)) return 1;
    return 0;
}

static void stay(struct worker *me) {
    /* The greatest length, a half of it, .. to the 128th part. */
    uint64_t many = (most >> draw(&me->lengths) % 8) | 1, from = all_calls();
    atomic_store(&me->is_held, 1);
    atomic_fetch_add(&held, 1);
    for (int n = 0; all_calls() - from < many && atomic_load(&going) > 0; n++)
        if (n < 100) sched_yield();
        else nap(50);
    me->held[me->holds++] = (struct hold){atomic_load(&me->call), !me->sends, all_calls() - from};
    atomic_fetch_sub(&held, 1);
    atomic_store(&me->is_held, 0);
    atomic_fetch_add(&going, 1);
}

static void hold(int number) {
    (void)number;
    int error = errno;
    struct worker *me = self;
    int is_within = me && me->is_in_call && atomic_load(&me->accesses_of_call) > 0 && !me->is_in_malloc;
    if (is_within && me->holds < MOST_HOLDS && may_stay()) stay(me);
    errno = error;
}

/* Tells that there is no end, and who is held. */
static void give_up(const char *what, const char *call) {
    fprintf(stderr, "held: %s%s", what, call);
    for (int n = 0; n < atomic_load(&count); n++)
        if (atomic_load(&workers[n].is_held)) fprintf(stderr, "; thread %d is held in %s", n + 1, atomic_load(&workers[n].call));
    fprintf(stderr, "\n");
    __real__exit(9);
}

static void look_for_waits(uint64_t accesses) {
    static uint64_t last, naps;
    static time_t since;
    struct timespec now;
    clock_gettime(CLOCK_MONOTONIC, &now);
    if (accesses != last || atomic_load(&held) == 0 || naps == 0) {
        last = accesses;
        naps = 0;
        since = now.tv_sec;
    }
    naps++;
    if (naps > MOST_NAPS && now.tv_sec - since > MOST_SECONDS) give_up("no access is made", "");
    for (int n = 0; n < atomic_load(&count); n++)
        if (atomic_load(&workers[n].accesses_of_call) >= MOST_ACCESSES) give_up("ten million accesses in one call of ", atomic_load(&workers[n].call));
}

/* Sends a signal to the first worker from this number on that isn't held. */
static void interrupt(int from) {
    pthread_mutex_lock(&sending);
    for (int n = 0; n < atomic_load(&count); n++) {
        struct worker *to = &workers[(from + n) % atomic_load(&count)];
        if (!atomic_load(&to->is_at_work) || atomic_load(&to->is_held)) continue;
        pthread_kill(to->thread, SIGUSR1);
        break;
    }
    pthread_mutex_unlock(&sending);
}

static void *watch(void *unused) {
    uint64_t drawn = started(2 * MOST - 1), next = draw(&drawn) % every;
    for (;;) {
        uint64_t accesses = all_accesses();
        look_for_waits(accesses);
        if (accesses >= next && atomic_load(&going) > 1) {
            interrupt((int)(draw(&drawn) % MOST));
            next = accesses + 1 + draw(&drawn) % (2 * every);
        }
        nap(20);
    }
    return unused;
}

static void start(void) {
    struct sigaction action = {.sa_handler = hold, .sa_flags = SA_RESTART};
    pthread_t watching;
    seed = number_in("HELD_SEED");
    every = number_in("HELD_EVERY");
    most = number_in("HELD_CALLS");
    if (sigaction(SIGUSR1, &action, NULL) || pthread_create(&watching, NULL, watch, NULL)) abort();
}

static void block(int how) {
    sigset_t signals;
    sigemptyset(&signals);
    sigaddset(&signals, SIGUSR1);
    pthread_sigmask(how, &signals, NULL);
}

void work_begins(void) {
    int number = atomic_fetch_add(&count, 1);
    if (number >= MOST) abort();
    struct worker *me = &workers[number];
    me->thread = pthread_self();
    pthread_once(&once, start);
    me->places = started(2 * (uint64_t)number + 1);
    me->lengths = started(2 * (uint64_t)number + 2);
    me->left = 1 + draw(&me->places) % (2 * every);
    self = me;
    atomic_fetch_add(&going, 1);
    atomic_store(&me->is_at_work, 1);
    block(SIG_UNBLOCK);
}

void work_ends(void) {
    block(SIG_BLOCK);
    pthread_mutex_lock(&sending);
    atomic_store(&self->is_at_work, 0);
    pthread_mutex_unlock(&sending);
    atomic_fetch_sub(&going, 1);
    self = NULL;
}

void call_begins(const char *name, uint64_t weight) {
    if (!self) return;
    self->weight = weight;
    atomic_store(&self->accesses_of_call, 0);
    atomic_store(&self->call, name);
    self->is_in_call = 1;
}

void call_ends(void) {
    if (!self) return;
    self->is_in_call = 0;
    atomic_store(&self->accesses_of_call, 0);
    add(&self->calls);
    if (atomic_load(&held) > 0) add(&self->meanwhile);
}

void before_access(void) {
    struct worker *me = self;
    if (!me || !me->is_in_call) return;
    add(&me->accesses);
    me->left -= me->left < me->weight ? me->left : me->weight;
    if (me->left == 0 && atomic_load(&me->accesses_of_call) > 0) {
        me->left = 1 + draw(&me->places) % (2 * every);
        me->sends = 1;
        pthread_kill(pthread_self(), SIGUSR1);
        me->sends = 0;
    }
    add(&me->accesses_of_call);
}

void *__wrap_malloc(size_t size) {
    if (self) self->is_in_malloc = 1;
    void *at = __real_malloc(size);
    if (self) self->is_in_malloc = 0;
    return at;
}

void *__wrap_realloc(void *at, size_t size) {
    if (self) self->is_in_malloc = 1;
    at = __real_realloc(at, size);
    if (self) self->is_in_malloc = 0;
    return at;
}

void __wrap_free(void *at) {
    if (self) self->is_in_malloc = 1;
    __real_free(at);
    if (self) self->is_in_malloc = 0;
}

static void tell(const char *name) {
    FILE *file = name ? fopen(name, "w") : NULL;
    uint64_t meanwhile = 0;
    if (!file) return;
    for (int n = 0; n < atomic_load(&count); n++) {
        struct worker *one = &workers[n];
        meanwhile += atomic_load(&one->meanwhile);
        for (int at = 0; at < one->holds; at++) {
            struct hold it = one->held[at];
            fprintf(file, "%s %s %llu\n", it.is_sent ? "sent" : "own", it.call, (unsigned long long)it.calls);
        }
    }
    fprintf(file, "meanwhile %llu\n", (unsigned long long)meanwhile);
    fclose(file);
}

void __wrap__exit(int status) {
    tell(getenv("HELD_TOLD"));
    __real__exit(status);
}
