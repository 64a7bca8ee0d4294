// Preloaded into `far_trace split` on a text of two mutators, brings its threads into one order, and counts how often other threads are let run: the first thread
// that it makes, mutator 0's, has ended before the next is made; the second, mutator 1's, begins at yield number YIELD (counted from 1), which ends when that thread
// has. The book's lines run in the program's own thread. A thread that waits too long ends the program with 99. Without YIELD no thread can be made. At the
// end it writes how many yields there were to standard error.
//
//   cc -O2 -shared -fPIC -o wait_split.so wait_split.c -ldl
#define _GNU_SOURCE
#include <dlfcn.h>
#include <errno.h>
#include <pthread.h>
#include <stdio.h>
#include <stdlib.h>
#include <time.h>
#include <unistd.h>

// A look takes 0.1 ms and longer, so all together 20 seconds at least.
enum { LOOKS = 200000, LOOK_NANOSECONDS = 100000, WAITED_TOO_LONG = 99 };

struct job {
    void *(*run)(void *);
    void *with;
    long number;
};

// The yield that is asked for, 0 without one; and what there was of each.
static long asked, yields, made, ended;

__attribute__((constructor)) static void begin(void) {
    const char *said = getenv("YIELD");
    asked = said ? atol(said) : 0;
}

// Waits until there were so many.
static void await(long *counted, long many, const char *what) {
    const struct timespec look = {0, LOOK_NANOSECONDS};
    for (long looks = 0; __atomic_load_n(counted, __ATOMIC_SEQ_CST) < many; looks++) {
        if (looks == LOOKS) {
            fprintf(stderr, "%s\n", what);
            _exit(WAITED_TOO_LONG);
        }
        nanosleep(&look, NULL);
    }
}

static void *run_in_order(void *it) {
    struct job job = *(struct job *)it;
    free(it);
    if (job.number == 2) await(&yields, asked, "no such yield comes");
    void *gave = job.run(job.with);
    __atomic_add_fetch(&ended, 1, __ATOMIC_SEQ_CST);
    return gave;
}

int pthread_create(pthread_t *thread, const pthread_attr_t *how, void *(*run)(void *), void *with) {
    static int (*real)(pthread_t *, const pthread_attr_t *, void *(*)(void *), void *);
    if (!real) real = (int (*)(pthread_t *, const pthread_attr_t *, void *(*)(void *), void *))dlsym(RTLD_NEXT, "pthread_create");
    struct job *job = asked ? malloc(sizeof *job) : NULL;
    if (!job) return EAGAIN;
    *job = (struct job){run, with, ++made};
    int failed = real(thread, how, run_in_order, job);
    if (!failed && made == 1) await(&ended, 1, "the first thread doesn't end");
    return failed;
}

int sched_yield(void) {
    long number = __atomic_add_fetch(&yields, 1, __ATOMIC_SEQ_CST);
    if (number == asked) await(&ended, 2, "the thread that is let run doesn't end");
    return 0;
}

// A program with threads ends so, past all destructors.
void _exit(int status) {
    static void (*real)(int);
    if (!real) real = (void (*)(int))dlsym(RTLD_NEXT, "_exit");
    fprintf(stderr, "%ld\n", yields);
    real(status);
    __builtin_unreachable();
}
