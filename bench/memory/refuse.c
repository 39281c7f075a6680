/* Refuses one allocation of the program that this is preloaded into: the one with the number REFUSE, counting from 1. At the end the count of
   all is written to the file COUNT, where that is named. */
#define _GNU_SOURCE
#include <dlfcn.h>
#include <stddef.h>
#include <stdio.h>
#include <stdlib.h>

static unsigned long count;

static int refused(void) {
    static unsigned long number;
    if (!number) {
        const char *word = getenv("REFUSE");
        number = word ? strtoul(word, NULL, 10) : (unsigned long)-1;
    }
    return ++count == number;
}

void *malloc(size_t size) {
    static void *(*real)(size_t);
    if (!real)
        real = dlsym(RTLD_NEXT, "malloc");
    return refused() ? NULL : real(size);
}

void *realloc(void *at, size_t size) {
    static void *(*real)(void *, size_t);
    if (!real)
        real = dlsym(RTLD_NEXT, "realloc");
    return refused() ? NULL : real(at, size);
}

void *aligned_alloc(size_t align, size_t size) {
    static void *(*real)(size_t, size_t);
    if (!real)
        real = dlsym(RTLD_NEXT, "aligned_alloc");
    return refused() ? NULL : real(align, size);
}

__attribute__((destructor)) static void tell(void) {
    const char *name = getenv("COUNT");
    FILE *file = name ? fopen(name, "w") : NULL;
    if (file) {
        fprintf(file, "%lu\n", count);
        fclose(file);
    }
}
