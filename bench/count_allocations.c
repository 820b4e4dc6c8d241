/* Counts what a program asks of its allocator, and the most bytes that it has at once; writes the count to the file that
   COUNT_FILE names at exit, and the bytes to that of HELD_FILE. The bytes are those that the allocator gives, which are a
   few more than are asked for. */
#define _GNU_SOURCE
#include <dlfcn.h>
#include <malloc.h>
#include <stdio.h>
#include <stdlib.h>

static unsigned long count;
static long held;
static long most;

static void *next(const char *name) { return dlsym(RTLD_NEXT, name); }

static void *given(void *block) {
    count++;
    held += (long)malloc_usable_size(block);
    if (most < held) most = held;
    return block;
}

void free(void *block) {
    static void (*real)(void *);
    if (!real) real = next("free");
    held -= (long)malloc_usable_size(block);
    real(block);
}

void *malloc(size_t size) {
    static void *(*real)(size_t);
    if (!real) real = next("malloc");
    return given(real(size));
}

void *realloc(void *old, size_t size) {
    static void *(*real)(void *, size_t);
    if (!real) real = next("realloc");
    long before = (long)malloc_usable_size(old);
    void *block = real(old, size);
    if (block || !size) held -= before;
    return given(block);
}

int posix_memalign(void **out, size_t align, size_t size) {
    static int (*real)(void **, size_t, size_t);
    if (!real) real = next("posix_memalign");
    int refused = real(out, align, size);
    given(refused ? NULL : *out);
    return refused;
}

void *aligned_alloc(size_t align, size_t size) {
    static void *(*real)(size_t, size_t);
    if (!real) real = next("aligned_alloc");
    return given(real(align, size));
}

static void tell(const char *variable, long number) {
    const char *path = getenv(variable);
    FILE *file = path ? fopen(path, "w") : NULL;
    if (file) {
        fprintf(file, "%ld\n", number);
        fclose(file);
    }
}

__attribute__((destructor)) static void tell_both(void) {
    long counted = (long)count, bytes = most;
    tell("COUNT_FILE", counted);
    tell("HELD_FILE", bytes);
}
