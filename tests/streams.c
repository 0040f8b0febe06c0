/*
 * Reads of standard input and writes of standard output that are interrupted, find nothing to move yet, or move fewer bytes
 * than asked, by turns that STREAMS_SEED fixes. Loaded before the C library (LD_PRELOAD), for tests/streams.py.
 */
#define _GNU_SOURCE
#include <dlfcn.h>
#include <errno.h>
#include <stdint.h>
#include <stdlib.h>
#include <unistd.h>

static uint64_t state;

static uint32_t next(void) {
    if (state == 0) {
        const char *seed = getenv("STREAMS_SEED");
        state = 2 * (seed ? strtoull(seed, NULL, 10) : 0) + 1;
    }
    state = state * UINT64_C(6364136223846793005) + UINT64_C(1442695040888963407);
    return (uint32_t)(state >> 33);
}

/* How many of `size` bytes this call may move; none, with errno set, where it fails. */
static size_t allowed(size_t size) {
    uint32_t turn = next();
    if (turn % 5 == 0 || turn % 7 == 0) {
        errno = turn % 5 == 0 ? EINTR : EAGAIN;
        return 0;
    }
    size_t few = 1 + turn % 3000;
    return size < few ? size : few;
}

ssize_t read(int file, void *bytes, size_t size) {
    ssize_t (*real)(int, void *, size_t) = (ssize_t(*)(int, void *, size_t))dlsym(RTLD_NEXT, "read");
    size_t most = file == STDIN_FILENO && size > 0 ? allowed(size) : size;
    return size > 0 && most == 0 ? -1 : real(file, bytes, most);
}

ssize_t write(int file, const void *bytes, size_t size) {
    ssize_t (*real)(int, const void *, size_t) = (ssize_t(*)(int, const void *, size_t))dlsym(RTLD_NEXT, "write");
    size_t most = file == STDOUT_FILENO && size > 0 ? allowed(size) : size;
    return size > 0 && most == 0 ? -1 : real(file, bytes, most);
}
