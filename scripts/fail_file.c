// Preloaded into a program, makes its call number FAIL_CALL of those that read or write at a position fail (counted from 1; 0 or no such variable: none), by the
// error of number FAIL_WITH (by EIO without that), or where FAIL_SHORT is set do half of what was asked. Each write from number FAIL_FULL on fails likewise. Each call
// is interrupted FAIL_INTERRUPT times before it is made. Write number FAIL_TORN puts half of its bytes and says that it put all. Before read number FAIL_CUT the file
// loses all its bytes. Byte number FAIL_FLIP of what each such read gives is another, counted from 1 too. From thread number
// FAIL_THREAD on none can be made. Where FAIL_UNLINK is set no file loses its name; where FAIL_OPEN is set none can be made, by the error of that number.
//
//   cc -O2 -shared -fPIC -o fail_file.so fail_file.c -ldl
#define _GNU_SOURCE
#include <dlfcn.h>
#include <errno.h>
#include <fcntl.h>
#include <pthread.h>
#include <stdarg.h>
#include <stdlib.h>
#include <sys/types.h>
#include <unistd.h>

static long count, cuts, tears, threads, writes;
static __thread long interrupted;
// How many bytes a write says that it put, where it tears them; else 0.
static __thread size_t torn;

// What a variable says; 0 without it.
static long number(const char *name) {
    const char *said = getenv(name);
    return said ? atol(said) : 0;
}

// Whether the call that is counted here has reached the number of a variable: -1 not yet, 0 now, 1 before; -1 without the variable.
static int reached(long *counted, const char *name) {
    long now = __atomic_add_fetch(counted, 1, __ATOMIC_SEQ_CST), at = number(name);
    return at == 0 || now < at ? -1 : now > at;
}

// It fails.
static ssize_t fail(void) {
    long with = number("FAIL_WITH");
    errno = with ? (int)with : EIO;
    return -1;
}

// How many bytes this call is to ask for; -1: it fails.
static ssize_t asked(int file, size_t size, int is_write) {
    if (interrupted++ < number("FAIL_INTERRUPT")) {
        errno = EINTR;
        return -1;
    }
    interrupted = 0;
    if (is_write && reached(&writes, "FAIL_FULL") >= 0) return fail();
    if (!is_write && reached(&cuts, "FAIL_CUT") == 0 && ftruncate(file, 0) != 0) return fail();
    if (is_write && reached(&tears, "FAIL_TORN") == 0) return (ssize_t)((torn = size) / 2);
    if (reached(&count, "FAIL_CALL") != 0) return (ssize_t)size;
    if (getenv("FAIL_SHORT")) return (ssize_t)(size / 2);
    return fail();
}

static ssize_t was_read(void *at, ssize_t size) {
    long flipped = number("FAIL_FLIP");
    if (0 < flipped && flipped <= size) ((char *)at)[flipped - 1] ^= (char)0xff;
    return size;
}

static ssize_t was_written(const void *at, ssize_t size) {
    (void)at;
    if (torn) size = (ssize_t)torn;
    torn = 0;
    return size;
}

#define CALL(NAME, BYTES, WAS, IS_WRITE)                                                      \
    ssize_t NAME(int file, BYTES at, size_t size, off_t from) {                               \
        static ssize_t (*real)(int, BYTES, size_t, off_t);                                    \
        if (!real) real = (ssize_t (*)(int, BYTES, size_t, off_t))dlsym(RTLD_NEXT, #NAME);    \
        ssize_t left = asked(file, size, IS_WRITE);                                           \
        return left < 0 ? left : WAS(at, real(file, at, (size_t)left, from));                 \
    }

CALL(pread, void *, was_read, 0)
CALL(pread64, void *, was_read, 0)
CALL(pwrite, const void *, was_written, 1)
CALL(pwrite64, const void *, was_written, 1)

#define OPEN(NAME)                                                                            \
    int NAME(const char *name, int how, ...) {                                                \
        static int (*real)(const char *, int, ...);                                           \
        if (!real) real = (int (*)(const char *, int, ...))dlsym(RTLD_NEXT, #NAME);           \
        va_list more;                                                                         \
        va_start(more, how);                                                                  \
        int mode = how & O_CREAT ? va_arg(more, int) : 0;                                     \
        va_end(more);                                                                         \
        if (!(how & O_CREAT) || !getenv("FAIL_OPEN")) return real(name, how, mode);           \
        errno = (int)number("FAIL_OPEN");                                                     \
        return -1;                                                                            \
    }

OPEN(open)
OPEN(open64)

int pthread_create(pthread_t *thread, const pthread_attr_t *how, void *(*run)(void *), void *with) {
    static int (*real)(pthread_t *, const pthread_attr_t *, void *(*)(void *), void *);
    if (!real) real = (int (*)(pthread_t *, const pthread_attr_t *, void *(*)(void *), void *))dlsym(RTLD_NEXT, "pthread_create");
    return reached(&threads, "FAIL_THREAD") < 0 ? real(thread, how, run, with) : EAGAIN;
}

int unlink(const char *name) {
    static int (*real)(const char *);
    if (!real) real = (int (*)(const char *))dlsym(RTLD_NEXT, "unlink");
    if (!getenv("FAIL_UNLINK")) return real(name);
    errno = EPERM;
    return -1;
}
