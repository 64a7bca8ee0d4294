// Preloaded into a program, makes its allocation number FAIL_ALLOC fail (counted from 1; 0 or no such variable: none)
// and, where FAIL_EVERY is set, each so manieth after it, and writes how many were asked for to the file that COUNT_ALLOC
// names. Where FAIL_IN is set it does so in the program of that name alone, and not in those that start it.
//
//   cc -O2 -shared -fPIC -o fail_malloc.so fail_malloc.c -ldl
#define _GNU_SOURCE
#include <dlfcn.h>
#include <errno.h>
#include <stddef.h>
#include <stdio.h>
#include <stdlib.h>
#include <string.h>

static long count;
static long nth = -1;
static long every;

static int is_meant(void) {
    const char *name = getenv("FAIL_IN");
    return !name || (program_invocation_short_name && !strcmp(name, program_invocation_short_name));
}

static int refused(void) {
    if (!is_meant()) return 0;
    if (nth < 0) {
        const char *value = getenv("FAIL_ALLOC");
        nth = value ? atol(value) : 0;
        value = getenv("FAIL_EVERY");
        every = value ? atol(value) : 0;
    }
    long now = __atomic_add_fetch(&count, 1, __ATOMIC_SEQ_CST);
    if (nth == 0 || now < nth || (now > nth && (every <= 0 || (now - nth) % every != 0))) return 0;
    errno = ENOMEM; // as the C library does, which asks for it where it makes a thread
    return 1;
}

void *malloc(size_t size) {
    static void *(*real)(size_t);
    if (!real) real = (void *(*)(size_t))dlsym(RTLD_NEXT, "malloc");
    return refused() ? NULL : real(size);
}

void *realloc(void *old, size_t size) {
    static void *(*real)(void *, size_t);
    if (!real) real = (void *(*)(void *, size_t))dlsym(RTLD_NEXT, "realloc");
    return refused() ? NULL : real(old, size);
}

void *calloc(size_t items, size_t size) {
    static void *(*real)(size_t, size_t);
    if (!real) real = (void *(*)(size_t, size_t))dlsym(RTLD_NEXT, "calloc");
    return refused() ? NULL : real(items, size);
}

void *aligned_alloc(size_t to, size_t size) {
    static void *(*real)(size_t, size_t);
    if (!real) real = (void *(*)(size_t, size_t))dlsym(RTLD_NEXT, "aligned_alloc");
    return refused() ? NULL : real(to, size);
}

static void tell(void) {
    const char *name = is_meant() ? getenv("COUNT_ALLOC") : NULL;
    long asked = count;
    FILE *file = name ? fopen(name, "w") : NULL;
    if (file) {
        fprintf(file, "%ld\n", asked);
        fclose(file);
    }
}

__attribute__((destructor)) static void tell_at_end(void) { tell(); }

// A program with threads ends so, past all destructors.
void _exit(int status) {
    static void (*real)(int);
    if (!real) real = (void (*)(int))dlsym(RTLD_NEXT, "_exit");
    tell();
    real(status);
    __builtin_unreachable();
}
