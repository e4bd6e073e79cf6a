/*
 * Records what the threads of a program are told of a map, and writes it as a history, which `ctrie check` and
 * examples/histories/find_order.py read. It knows nothing of the map: calls and replies are given as docs/SCRIPTS.md
 * spells them.
 *
 *     struct recording *mine = recording_new(5000);     a thread's own, for this many calls
 *     recording_begin(mine, "put 0 %d %d", key, value); just before the call
 *     ... the call ...
 *     recording_end(mine, "some %d", before);           just after it
 *     recording_write(file, "wide", all, threads);      when the threads have been joined
 *
 * One atomic count stamps the begins and the ends of all threads, so one that ended before another began has the lower
 * number. A call that is begun and not ended is an unfinished one, and has to be the last of its thread.
 */
#ifndef RECORDER_H
#define RECORDER_H

#include <inttypes.h>
#include <stdarg.h>
#include <stdatomic.h>
#include <stdbool.h>
#include <stdio.h>
#include <stdlib.h>

/* A call, with the stamps of its begin and of its end, 0 where it hasn't ended. Its number is its place in the order of
   all calls, from 1 on, where the map tells it; else 0. */
struct recorded {
    uint64_t begin, end, number, id;
    size_t thread;
    char call[80], reply[48];
};

/* The calls of a thread. */
struct recording {
    size_t count, room;
    struct recorded *calls;
};

static atomic_uint_fast64_t recorder_clock = 1;

static inline void recording_fail(const char *why) {
    fprintf(stderr, "recorder: %s\n", why);
    exit(1);
}

static inline struct recording *recording_new(size_t room) {
    struct recording *made = malloc(sizeof *made);
    if (!made || !(made->calls = calloc(room, sizeof *made->calls))) recording_fail("no memory");
    made->count = 0;
    made->room = room;
    return made;
}

static inline void recording_free(struct recording *recording) {
    free(recording->calls);
    free(recording);
}

static inline void recording_text(char *text, size_t room, const char *form, va_list words) {
    int length = vsnprintf(text, room, form, words);
    if (length < 0 || (size_t)length >= room) recording_fail("a call or a reply is too long");
}

static inline void recording_begin(struct recording *recording, const char *form, ...) {
    va_list words;
    if (recording->count == recording->room) recording_fail("more calls than there is room for");
    va_start(words, form);
    recording_text(recording->calls[recording->count].call, sizeof recording->calls->call, form, words);
    va_end(words);
    recording->calls[recording->count++].begin = atomic_fetch_add(&recorder_clock, 1);
}

/* Ends the call that was begun last. */
static inline void recording_end(struct recording *recording, const char *form, ...) {
    struct recorded *last = &recording->calls[recording->count - 1];
    va_list words;
    last->end = atomic_fetch_add(&recorder_clock, 1);
    va_start(words, form);
    recording_text(last->reply, sizeof last->reply, form, words);
    va_end(words);
}

/* Tells the place of the last call in the order of all. */
static inline void recording_number(struct recording *recording, uint64_t number) {
    recording->calls[recording->count - 1].number = number;
}

struct recorded_event {
    uint64_t at;
    struct recorded *of;
};

static inline int recorded_event_order(const void *one, const void *other) {
    uint64_t a = ((const struct recorded_event *)one)->at, b = ((const struct recorded_event *)other)->at;
    return (a > b) - (a < b);
}

/* Writes the begins and the ends, and sets the calls' ids. */
static inline void recording_write_events(FILE *file, struct recorded_event *events, size_t count) {
    uint64_t id = 0;
    size_t i;
    for (i = 0; i < count; i++) {
        struct recorded *of = events[i].of;
        if (events[i].at == of->begin) {
            of->id = id++;
            fprintf(file, "begin %" PRIu64 " %zu %s\n", of->id, of->thread + 1, of->call);
        } else {
            fprintf(file, "end %" PRIu64 " %s\n", of->id, of->reply);
        }
    }
}

/* Writes the recordings of this many threads, at most 255, of a map whose keys have this hash; with the order of all calls
   where each has a number, else without one. */
static inline void recording_write(FILE *file, const char *hash, struct recording **threads, size_t count) {
    size_t calls = 0, many = 0, numbered = 0, i, k;
    struct recorded_event *events;
    for (i = 0; i < count; i++) calls += threads[i]->count;
    if (!(events = malloc((2 * calls + 1) * sizeof *events))) recording_fail("no memory");
    for (i = 0; i < count; i++)
        for (k = 0; k < threads[i]->count; k++) {
            struct recorded *of = &threads[i]->calls[k];
            of->thread = i;
            events[many++] = (struct recorded_event){of->begin, of};
            if (of->end) events[many++] = (struct recorded_event){of->end, of};
        }
    fprintf(file, "hash %s\n", hash);
    qsort(events, many, sizeof *events, recorded_event_order);
    recording_write_events(file, events, many);
    for (i = 0; i < many; i++)
        if (events[i].at == events[i].of->begin && events[i].of->number)
            events[numbered++] = (struct recorded_event){events[i].of->number, events[i].of};
    if (calls && numbered == calls) {
        qsort(events, numbered, sizeof *events, recorded_event_order);
        fputs("order", file);
        for (i = 0; i < numbered; i++) fprintf(file, " %" PRIu64, events[i].of->id);
        fputs("\n", file);
    }
    free(events);
}

/* Writes them into the file of this name, if it isn't NULL. */
static inline void recording_save(const char *name, const char *hash, struct recording **threads, size_t count) {
    FILE *file;
    if (!name) return;
    if (!(file = fopen(name, "w"))) recording_fail("the file can't be written");
    recording_write(file, hash, threads, count);
    if (fclose(file)) recording_fail("the file can't be written");
}

#endif
