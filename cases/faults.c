/* Preloaded into the program: refuses its REFUSE-th allocation, and fails its FAIL_READ-th read of standard input and its FAIL_WRITE-th write of
   standard output, counted from 1. With SHORT each of these moves one byte. COUNTS names a file that gets the three counts at the end. */
#define _GNU_SOURCE
#include <dlfcn.h>
#include <errno.h>
#include <stdio.h>
#include <stdlib.h>
#include <unistd.h>

static struct { long refuse, fail_read, fail_write, is_short; } wanted;
static struct { long allocations, reads, writes; } counts;

static long number(const char *name) {
    const char *text = getenv(name);
    return text ? atol(text) : 0;
}

__attribute__((constructor)) static void begin(void) {
    wanted.refuse = number("REFUSE");
    wanted.fail_read = number("FAIL_READ");
    wanted.fail_write = number("FAIL_WRITE");
    wanted.is_short = number("SHORT");
}

__attribute__((destructor)) static void end(void) {
    long allocations = counts.allocations; /* without those for the file */
    const char *path = getenv("COUNTS");
    FILE *file = path ? fopen(path, "w") : NULL;
    if (file) {
        fprintf(file, "%ld %ld %ld\n", allocations, counts.reads, counts.writes);
        fclose(file);
    }
}

static void *next(const char *name) {
    return dlsym(RTLD_NEXT, name);
}

/* An atomic addition, so that no two threads have one number. */
static int is_refused(void) {
    return __atomic_add_fetch(&counts.allocations, 1, __ATOMIC_SEQ_CST) == wanted.refuse;
}

void *malloc(size_t size) {
    static void *(*real)(size_t);
    if (!real) real = (void *(*)(size_t))next("malloc");
    if (is_refused()) { errno = ENOMEM; return NULL; }
    return real(size);
}

void *realloc(void *old, size_t size) {
    static void *(*real)(void *, size_t);
    if (!real) real = (void *(*)(void *, size_t))next("realloc");
    if (is_refused()) { errno = ENOMEM; return NULL; }
    return real(old, size);
}

void *aligned_alloc(size_t alignment, size_t size) {
    static void *(*real)(size_t, size_t);
    if (!real) real = (void *(*)(size_t, size_t))next("aligned_alloc");
    if (is_refused()) { errno = ENOMEM; return NULL; }
    return real(alignment, size);
}

int posix_memalign(void **made, size_t alignment, size_t size) {
    static int (*real)(void **, size_t, size_t);
    if (!real) real = (int (*)(void **, size_t, size_t))next("posix_memalign");
    if (is_refused()) return ENOMEM;
    return real(made, alignment, size);
}

ssize_t read(int from, void *bytes, size_t size) {
    static ssize_t (*real)(int, void *, size_t);
    if (!real) real = (ssize_t (*)(int, void *, size_t))next("read");
    if (from != 0) return real(from, bytes, size);
    if (++counts.reads == wanted.fail_read) { errno = EIO; return -1; }
    return real(from, bytes, wanted.is_short && size > 1 ? 1 : size);
}

ssize_t write(int to, const void *bytes, size_t size) {
    static ssize_t (*real)(int, const void *, size_t);
    if (!real) real = (ssize_t (*)(int, const void *, size_t))next("write");
    if (to != 1) return real(to, bytes, size);
    if (++counts.writes == wanted.fail_write) { errno = EIO; return -1; }
    return real(to, bytes, wanted.is_short && size > 1 ? 1 : size);
}
