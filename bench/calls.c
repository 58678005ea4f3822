/* Preloaded into the program by `bench/cluster` and `bench/replay`: counts its syncs of a file's data (fdatasync(2)), its writes to the standard output
   (write(2)), where a node's record goes, and its calls that take memory (malloc(3) and its like). The counts stand in the 24 bytes of the file that
   CALLS names, which are there also where the program is ended by a signal. */
#include <dlfcn.h>
#include <fcntl.h>
#include <stdint.h>
#include <stdlib.h>
#include <sys/mman.h>
#include <unistd.h>

static struct counts {
    uint64_t syncs, writes, allocations;
} *counts;

__attribute__((constructor)) static void begin(void) {
    const char *path = getenv("CALLS");
    int file = path ? open(path, O_RDWR | O_CREAT, 0600) : -1;
    if (file < 0) return;
    if (ftruncate(file, sizeof *counts) == 0) {
        void *place = mmap(NULL, sizeof *counts, PROT_READ | PROT_WRITE, MAP_SHARED, file, 0);
        if (place != MAP_FAILED) counts = place;
    }
    close(file);
}

int fdatasync(int file) {
    static int (*real)(int);
    if (!real) real = (int (*)(int))dlsym(RTLD_NEXT, "fdatasync");
    if (counts) ++counts->syncs;
    return real(file);
}

ssize_t write(int file, const void *bytes, size_t count) {
    static ssize_t (*real)(int, const void *, size_t);
    if (!real) real = (ssize_t (*)(int, const void *, size_t))dlsym(RTLD_NEXT, "write");
    if (counts && file == STDOUT_FILENO) ++counts->writes;
    return real(file, bytes, count);
}

/* The C library's own, by the names that it has beside the usual ones. */
extern void *__libc_malloc(size_t), *__libc_calloc(size_t, size_t), *__libc_realloc(void *, size_t), *__libc_memalign(size_t, size_t);

static void count_allocation(void) {
    if (counts) ++counts->allocations;
}

void *malloc(size_t bytes) {
    count_allocation();
    return __libc_malloc(bytes);
}

void *calloc(size_t count, size_t bytes) {
    count_allocation();
    return __libc_calloc(count, bytes);
}

void *realloc(void *old, size_t bytes) {
    count_allocation();
    return __libc_realloc(old, bytes);
}

void *aligned_alloc(size_t alignment, size_t bytes) {
    count_allocation();
    return __libc_memalign(alignment, bytes);
}

int posix_memalign(void **place, size_t alignment, size_t bytes) {
    count_allocation();
    *place = __libc_memalign(alignment, bytes);
    return *place ? 0 : 12; /* ENOMEM */
}
