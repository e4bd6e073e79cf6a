/* What a program takes of memory. It is linked with -Wl,--wrap=malloc,--wrap=realloc, so that both are counted here, and
   refused where that is wanted. */
#include <stdbool.h>
#include <stdio.h>
#include <stdlib.h>

static unsigned long allocations = 0;
static bool refusing = false;

void *__real_malloc(size_t size);
void *__real_realloc(void *old, size_t size);
void *__wrap_malloc(size_t size);
void *__wrap_realloc(void *old, size_t size);

void *__wrap_malloc(size_t size) {
    __atomic_fetch_add(&allocations, 1, __ATOMIC_SEQ_CST);
    return refusing ? NULL : __real_malloc(size);
}

void *__wrap_realloc(void *old, size_t size) {
    __atomic_fetch_add(&allocations, 1, __ATOMIC_SEQ_CST);
    return refusing ? NULL : __real_realloc(old, size);
}

/* How many kB of the process are resident, counted page by page: /proc/self/statm is a guess. What a file is behind, as the
   library's code, isn't counted: the system takes such pages away and brings them back. */
static long resident(void) {
    char line[256];
    long size = 0;
    FILE *pages = fopen("/proc/self/smaps_rollup", "r");
    while (pages && size == 0 && fgets(line, sizeof line, pages))
        if (sscanf(line, "Anonymous: %ld", &size) != 1) size = 0;
    if (pages) fclose(pages);
    if (size == 0) {
        printf("/proc/self/smaps_rollup tells no size\n");
        exit(1);
    }
    return size;
}
