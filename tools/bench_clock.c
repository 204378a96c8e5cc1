// Preloaded into the oracle's worker by bench.c. The worker writes a line that begins with P before the construction, and its answer
// behind it; a line with the nanoseconds between the two is put in front of the answer. So the clock is read within the worker, and no
// pipe is in the figure.
#define _GNU_SOURCE
#include <dlfcn.h>
#include <stdint.h>
#include <stdio.h>
#include <time.h>
#include <unistd.h>

// Called at both ends of what is timed, so that instructions can be counted from one call to the next.
__attribute__((noinline)) uint64_t bench_mark(void) {
    struct timespec t;
    clock_gettime(CLOCK_MONOTONIC, &t);
    return (uint64_t)t.tv_sec * 1000000000 + (uint64_t)t.tv_nsec;
}

ssize_t write(int file, const void *bytes, size_t length) {
    static ssize_t (*real)(int, const void *, size_t);
    static uint64_t from; // 0 while nothing is timed
    if (!real)
        real = (ssize_t (*)(int, const void *, size_t))dlsym(RTLD_NEXT, "write");
    if (file == 1 && from != 0) {
        char line[24];
        int count = snprintf(line, sizeof line, "%lu\n", bench_mark() - from);
        from = 0;
        if (real(1, line, (size_t)count) != count)
            return -1;
    }
    ssize_t wrote = real(file, bytes, length);
    if (file == 1 && length > 0 && *(const char *)bytes == 'P')
        from = bench_mark();
    return wrote;
}
