/* Loaded before the C library: the FAIL_AT-th allocation of the program fails, and no other. A byte is
   written into the file FAIL_MARK then. It takes no header, since the toolchain, whose compiler makes it, has none. */
typedef unsigned long size_t;
#define NULL ((void *)0)
#define RTLD_NEXT ((void *)-1L)
#define ENOMEM 12
#define O_WRONLY 1

extern void *dlsym(void *library, const char *name);
extern char *getenv(const char *name);
extern long atol(const char *text);
extern int open(const char *name, int flags, ...);
extern long write(int file, const void *bytes, size_t length);
extern int close(int file);
extern int *__errno_location(void);

static long left = -1;

static int is_failing(void) {
    if (left < 0) {
        const char *at = getenv("FAIL_AT");
        left = at ? atol(at) : 0;
    }
    if (left == 0 || --left > 0) return 0;
    const char *mark = getenv("FAIL_MARK");
    if (mark) {
        int file = open(mark, O_WRONLY);
        write(file, "x", 1);
        close(file);
    }
    *__errno_location() = ENOMEM;
    return 1;
}

void *malloc(size_t size) {
    static void *(*real)(size_t);
    if (!real) real = dlsym(RTLD_NEXT, "malloc");
    return is_failing() ? NULL : real(size);
}

void *realloc(void *old, size_t size) {
    static void *(*real)(void *, size_t);
    if (!real) real = dlsym(RTLD_NEXT, "realloc");
    return is_failing() ? NULL : real(old, size);
}
