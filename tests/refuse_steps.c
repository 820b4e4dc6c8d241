/* Refuses one allocation of a program's steps, that of the number in REFUSE, counted from 1. A step begins when the program
   writes the line `step` to its standard error, and ends with the line `done`; what is asked for outside steps is given and
   not counted. At the end the file that REFUSE_FILE names has two numbers: how many were counted, and how many refused. */
#define _GNU_SOURCE
#include <dlfcn.h>
#include <errno.h>
#include <stdio.h>
#include <stdlib.h>
#include <string.h>
#include <unistd.h>

static long count, refused, at;
static int in_step;

static void *next(const char *name) { return dlsym(RTLD_NEXT, name); }

static int refuse(void) {
    if (!in_step || ++count != at) return 0;
    refused++;
    errno = ENOMEM;
    return 1;
}

__attribute__((constructor)) static void begin(void) {
    const char *number = getenv("REFUSE");
    at = number ? atol(number) : 0;
}

ssize_t write(int file, const void *bytes, size_t size) {
    static ssize_t (*real)(int, const void *, size_t);
    if (!real) real = next("write");
    if (file == 2 && size == 5 && !memcmp(bytes, "done\n", 5)) in_step = 0;
    ssize_t written = real(file, bytes, size);
    if (file == 2 && size == 5 && !memcmp(bytes, "step\n", 5)) in_step = 1;
    return written;
}

void *malloc(size_t size) {
    static void *(*real)(size_t);
    if (!real) real = next("malloc");
    return refuse() ? NULL : real(size);
}

void *realloc(void *old, size_t size) {
    static void *(*real)(void *, size_t);
    if (!real) real = next("realloc");
    return refuse() ? NULL : real(old, size);
}

int posix_memalign(void **out, size_t align, size_t size) {
    static int (*real)(void **, size_t, size_t);
    if (!real) real = next("posix_memalign");
    return refuse() ? ENOMEM : real(out, align, size);
}

void *aligned_alloc(size_t align, size_t size) {
    static void *(*real)(size_t, size_t);
    if (!real) real = next("aligned_alloc");
    return refuse() ? NULL : real(align, size);
}

__attribute__((destructor)) static void end(void) {
    const char *path = getenv("REFUSE_FILE");
    long counted = count;
    FILE *file = path ? fopen(path, "w") : NULL;
    if (file) {
        fprintf(file, "%ld %ld\n", counted, refused);
        fclose(file);
    }
}
