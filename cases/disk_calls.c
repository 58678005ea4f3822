/* Preloaded into a node by `cases/restarts`: writes a line of each call of the system on the file of its journal, and on the folder once that file is
   open, to the file that CALLS names: what was called, on which of the two, and the mode of an open, the operation of a lock or the offset of a
   write. */
#include <dlfcn.h>
#include <fcntl.h>
#include <stdarg.h>
#include <stdio.h>
#include <stdlib.h>
#include <string.h>
#include <sys/types.h>
#include <unistd.h>

/* Their descriptors; none is -1. */
static int journal = -1, folder = -1;

static void tell(const char *call, int file, long number) {
    const char *path = getenv("CALLS");
    if (!path || file < 0 || (file != journal && file != folder)) return;
    static int (*real)(const char *, int, ...);
    if (!real) real = (int (*)(const char *, int, ...))dlsym(RTLD_NEXT, "open");
    int told = real(path, O_WRONLY | O_CREAT | O_APPEND, 0600);
    if (told < 0) return;
    dprintf(told, "%s %s %lo\n", call, file == journal ? "journal" : "folder", number);
    close(told);
}

int open(const char *path, int flags, ...) {
    static int (*real)(const char *, int, ...);
    if (!real) real = (int (*)(const char *, int, ...))dlsym(RTLD_NEXT, "open");
    va_list rest;
    va_start(rest, flags);
    mode_t mode = flags & O_CREAT ? va_arg(rest, mode_t) : 0;
    va_end(rest);
    int file = real(path, flags, mode);
    if (file < 0) return file;
    /* The folder is closed at once, and its number may be that of another file then. */
    if (file == folder) folder = -1;
    if (strcmp(path, "ritas.journal") == 0) journal = file;
    if (journal >= 0 && strcmp(path, ".") == 0) folder = file;
    if (file == journal || file == folder) tell("open", file, mode);
    return file;
}

int flock(int file, int operation) {
    static int (*real)(int, int);
    if (!real) real = (int (*)(int, int))dlsym(RTLD_NEXT, "flock");
    int answer = real(file, operation);
    if (answer == 0) tell("flock", file, operation);
    return answer;
}

int fsync(int file) {
    static int (*real)(int);
    if (!real) real = (int (*)(int))dlsym(RTLD_NEXT, "fsync");
    int answer = real(file);
    if (answer == 0) tell("fsync", file, 0);
    return answer;
}

int fdatasync(int file) {
    static int (*real)(int);
    if (!real) real = (int (*)(int))dlsym(RTLD_NEXT, "fdatasync");
    int answer = real(file);
    if (answer == 0) tell("fdatasync", file, 0);
    return answer;
}

ssize_t pread(int file, void *bytes, size_t count, off_t at) {
    static ssize_t (*real)(int, void *, size_t, off_t);
    if (!real) real = (ssize_t (*)(int, void *, size_t, off_t))dlsym(RTLD_NEXT, "pread");
    tell("pread", file, at);
    return real(file, bytes, count, at);
}

ssize_t pwrite(int file, const void *bytes, size_t count, off_t at) {
    static ssize_t (*real)(int, const void *, size_t, off_t);
    if (!real) real = (ssize_t (*)(int, const void *, size_t, off_t))dlsym(RTLD_NEXT, "pwrite");
    ssize_t answer = real(file, bytes, count, at);
    tell("pwrite", file, at);
    return answer;
}
