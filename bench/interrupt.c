// Interrupts reads: with this library loaded first, two of three calls of pread fail as if a signal came.
#define _GNU_SOURCE
#include <dlfcn.h>
#include <errno.h>
#include <unistd.h>

ssize_t pread(int file, void *into, size_t size, off_t at) {
    static ssize_t (*next)(int, void *, size_t, off_t);
    static int calls;
    if (!next) next = dlsym(RTLD_NEXT, "pread");
    if (calls++ % 3 < 2) {
        errno = EINTR;
        return -1;
    }
    return next(file, into, size, at);
}

// The name that a program gives it where an offset has 64 bits.
ssize_t pread64(int file, void *into, size_t size, off_t at) __attribute__((alias("pread")));
