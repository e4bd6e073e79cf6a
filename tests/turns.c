/* turns.c: the threads of a program on one thread of the system, which take turns. It is linked with a program each of whose atomic accesses is
   preceded by a call of turn(), and in the place of the C library's functions for threads (-Wl,--wrap). Whose turn is next is drawn at random from
   the number TURNS_SEED: at each access the turn goes on to another thread with a probability that the seed decides, from one half to one in 256, so
   in some runs a thread is held in the midst of a call while others make many. So a run is the same each time, and its accesses are in one order.
   Where TURNS_COUNT names a file, the number of accesses is written there when the program ends. One that has no end after a hundred million is
   told of, and its status is 9. */
#define _GNU_SOURCE
#include <stdint.h>
#include <stdio.h>
#include <stdlib.h>
#include <ucontext.h>

enum { MOST = 64, STACK = 1 << 20, MOST_ACCESSES = 100000000 };

struct thread {
    ucontext_t state;
    void *(*start)(void *);
    void *argument;
    int is_done;
};

static struct thread threads[MOST];
static int count = 1, now;
static uint64_t drawn, accesses;
static unsigned stay;

static uint64_t draw(void) {
    drawn ^= drawn << 13;
    drawn ^= drawn >> 7;
    drawn ^= drawn << 17;
    return drawn >> 20;
}

static void tell(void) {
    const char *name = getenv("TURNS_COUNT");
    FILE *file = name ? fopen(name, "w") : NULL;
    if (file) {
        fprintf(file, "%llu\n", (unsigned long long)accesses);
        fclose(file);
    }
}

static void begin(void) {
    const char *seed = getenv("TURNS_SEED");
    drawn = (seed ? strtoull(seed, NULL, 10) : 1) * 0x9E3779B97F4A7C15u | 1;
    for (int n = 0; n < 8; n++) draw();
    stay = 1u << (1 + draw() % 8);
}

/* Another thread goes on, if there is one. */
static void pass(void) {
    int ready[MOST], some = 0;
    for (int n = 0; n < count; n++)
        if (!threads[n].is_done && n != now) ready[some++] = n;
    if (some == 0) return;
    int from = now;
    now = ready[draw() % (uint64_t)some];
    swapcontext(&threads[from].state, &threads[now].state);
}

void __real__exit(int status);

/* Before each atomic access. */
void turn(void) {
    if (!drawn) begin();
    if (++accesses > MOST_ACCESSES) {
        fprintf(stderr, "turns: a hundred million accesses, and no end\n");
        __real__exit(9);
    }
    if (count > 1 && draw() % stay == 0) pass();
}

static void run(int number) {
    threads[number].start(threads[number].argument);
    threads[number].is_done = 1;
    pass();
    abort(); /* nobody is left */
}

int __wrap_pthread_create(unsigned long *id, const void *attributes, void *(*start)(void *), void *argument) {
    (void)attributes;
    if (count == MOST) return 11;
    struct thread *made = &threads[count];
    made->start = start;
    made->argument = argument;
    getcontext(&made->state);
    made->state.uc_stack.ss_sp = malloc(STACK);
    if (!made->state.uc_stack.ss_sp) return 11;
    made->state.uc_stack.ss_size = STACK;
    makecontext(&made->state, (void (*)(void))run, 1, count);
    *id = (unsigned long)count++;
    return 0;
}

int __wrap_pthread_join(unsigned long id, void **result) {
    (void)result;
    while (!threads[id].is_done) pass();
    return 0;
}

int __wrap_pthread_detach(unsigned long id) {
    (void)id;
    return 0;
}

unsigned long __wrap_pthread_self(void) {
    return (unsigned long)now;
}

int __wrap_sched_yield(void) {
    pass();
    return 0;
}

void __wrap__exit(int status) {
    tell();
    __real__exit(status);
}

/* A thread that would sleep until a word changes looks again, and a wake finds nobody asleep. */
long __wrap_syscall(long number, ...) {
    (void)number;
    pass();
    return 0;
}
