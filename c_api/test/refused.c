/* Each growth of memory is refused in turn: then a call answers FAR_MEMORY, or does without, no object is lost, and all memory is given back. */
#define _GNU_SOURCE
#include "foxglovepeg.h"

#include <errno.h>
#include <fcntl.h>
#include <stdio.h>
#include <stdlib.h>
#include <string.h>
#include <sys/mman.h>
#include <unistd.h>

static uint64_t asked, refused, live, largest;
static int opened_wrong, interrupted, random_maps;
static bool wide;
static char folder[] = "/tmp/refused.XXXXXX";

static void *at_most(size_t bytes, void *old) {
    if (++asked == refused) return errno = ENOMEM, NULL;
    live += old == NULL;
    if (bytes > largest) largest = bytes;
    return realloc(old, bytes);
}

static void *test_malloc(size_t bytes) { return at_most(bytes, NULL); }
static void *test_realloc(void *at, size_t bytes) { return at_most(bytes, at); }
static void test_free(void *at) {
    live -= at != NULL;
    free(at);
}

/* A folder that can't make a file without a name, each second time; old systems say so in three ways. */
static int test_open(const char *path, int flags, int mode) {
    static const int WHY[] = {EOPNOTSUPP, EISDIR, EINVAL};
    opened_wrong += mode != 0600 || (flags & O_CLOEXEC) == 0;
    if (refused % 2 == 0) return open(path, flags, mode);
    errno = WHY[refused / 2 % 3];
    return -1;
}

/* Room in a file is interrupted twice before it is taken. Of much it is only said to be there. */
static int test_fallocate(int fd, off_t from, off_t bytes) { return wide ? 0 : ++interrupted % 3 != 0 ? EINTR : posix_fallocate(fd, from, bytes); }

/* A file that is closed leaves another errno. */
static int test_close(int fd) {
    int status = close(fd);
    errno = EIO;
    return status;
}

static int test_madvise(void *at, size_t bytes, int advice) {
    random_maps += advice == MADV_RANDOM;
    return madvise(at, bytes, advice);
}

#define open test_open
#define close test_close
#define madvise test_madvise
#define posix_fallocate test_fallocate
#define malloc test_malloc
#define realloc test_realloc
#define free test_free
#include "../support.c"
#undef open
#undef close
#undef madvise
#undef posix_fallocate
#undef malloc
#undef realloc
#undef free

enum { OBJECTS = 1200, KEYS = 1200, LONG = 9000, NEAR = 1 << 16 };

#define CHECK(holds)                                                                                              \
    do {                                                                                                          \
        if (!(holds)) {                                                                                           \
            fprintf(stderr, "refused.c:%d: %s (growth %llu)\n", __LINE__, #holds, (unsigned long long)refused);   \
            exit(1);                                                                                              \
        }                                                                                                         \
    } while (0)

/* Calls again what was refused once. */
#define TWICE(call)                                                                                        \
    do {                                                                                                   \
        int32_t status = (call);                                                                           \
        if (status != FAR_OK) {                                                                            \
            CHECK(status == FAR_MEMORY || status == FAR_DEVICE || status == FAR_NO_ROOM || (status == FAR_FILE && errno == ENOMEM));                  \
            CHECK((call) == FAR_OK);                                                                       \
        }                                                                                                  \
    } while (0)

static void play(bool in_file) {
    struct far_worker worker = FAR_WORKER_NONE;
    static uint64_t handles[OBJECTS];
    uint8_t bytes[200], out[200];
    asked = largest = 0;
    if (in_file) TWICE(far_open_folder(&worker, NEAR, OBJECTS, 64, folder, 1 << 22));
    else TWICE(far_open_memory(&worker, NEAR, OBJECTS, 64));
    for (size_t k = 0; k < OBJECTS; k++) {
        memset(bytes, (int)(k % 251), sizeof bytes);
        TWICE(far_alloc(&worker, bytes, sizeof bytes, 1, &handles[k]));
    }
    for (size_t k = 0; k < OBJECTS; k++) {
        memset(bytes, (int)(k % 251), sizeof bytes);
        TWICE(far_read(&worker, handles[k], 0, out, sizeof out));
        CHECK(memcmp(bytes, out, sizeof out) == 0);
    }
    memset(bytes, 3, sizeof bytes);
    TWICE(far_exchange(&worker, handles[7], 0, bytes, sizeof bytes));
    CHECK(bytes[0] == 7 && bytes[199] == 7);
    int32_t status = far_add_heap(&worker);
    CHECK(status == FAR_OK || (status == FAR_MEMORY && far_add_heap(&worker) == FAR_OK));
    CHECK(far_close(&worker) == FAR_OK && live == 0 && !regions[0].taken && opened_wrong == 0);
    CHECK(in_file || largest < 1 << 20); /* in memory far bytes are taken as objects leave */
}

/* The same of a map, with a long value each 100 keys. */
static void play_map(bool in_file) {
    static const struct far_map_plan PLAN = {NEAR, KEYS, NEAR, KEYS, 3, 5, 64};
    static uint8_t value[LONG], out[LONG];
    struct far_map map = FAR_MAP_NONE;
    size_t len = 0;
    asked = largest = 0;
    if (in_file) TWICE(far_map_open_folder(&map, &PLAN, folder, 1 << 22, 1 << 22));
    else TWICE(far_map_open_memory(&map, &PLAN));
    for (uint32_t k = 0; k < KEYS; k++) {
        memset(value, (int)(k % 251), sizeof value);
        TWICE(far_map_put(&map, (const uint8_t *)&k, sizeof k, value, k % 100 == 0 ? LONG : 100));
    }
    for (uint32_t k = 0; k < KEYS; k++) {
        memset(value, (int)(k % 251), sizeof value);
        TWICE(far_map_get(&map, (const uint8_t *)&k, sizeof k, out, sizeof out, &len));
        CHECK(len == (k % 100 == 0 ? LONG : 100) && memcmp(value, out, len) == 0);
    }
    for (uint32_t k = 0; k < KEYS; k += 50) TWICE(far_map_remove(&map, (const uint8_t *)&k, sizeof k));
    CHECK(far_map_length(&map, &len) == FAR_OK && len == KEYS - KEYS / 50);
    CHECK(far_map_close(&map) == FAR_OK && live == 0 && !regions[0].taken && opened_wrong == 0 && largest < 1 << 20);
}

/* Plays with each growth refused in turn. */
static void refuse_each(void (*play_once)(bool), bool in_file) {
    refused = 0;
    do {
        refused++;
        play_once(in_file);
    } while (asked >= refused);
    CHECK(refused > 20);
}

/* More than 2^31 bytes of a file, none of which is touched as it is opened: they are not there. Of what is mapped little is read ahead. After a refusal errno tells why. */
static void open_wide(void) {
    struct far_worker worker = FAR_WORKER_NONE;
    refused = 0, wide = true;
    CHECK(far_open_folder(&worker, NEAR, OBJECTS, 64, folder, 3ull << 30) == FAR_OK && far_close(&worker) == FAR_OK && random_maps == 1);
    wide = false;
    CHECK(far_open_folder(&worker, NEAR, OBJECTS, 64, folder, UINT64_MAX) == FAR_FILE && errno == EFBIG);
}

int main(void) {
    CHECK(mkdtemp(folder) != NULL);
    open_wide();
    refuse_each(play, false);
    refuse_each(play, true);
    refuse_each(play_map, false);
    refuse_each(play_map, true);
    CHECK(rmdir(folder) == 0); /* no file is left there */
    return 0;
}
