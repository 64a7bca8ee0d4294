/* What the proved part calls, the heap; far sides in files; and the statuses in words. It isn't proved. */
#define _GNU_SOURCE
#include "foxglovepeg.h"

#include <errno.h>
#include <fcntl.h>
#include <linux/magic.h>
#include <pthread.h>
#include <stdatomic.h>
#include <stdio.h>
#include <stdlib.h>
#include <string.h>
#include <sys/mman.h>
#include <sys/vfs.h>
#include <unistd.h>

#define HIDDEN __attribute__((visibility("hidden")))

/* -- Far sides in files: memory that a file is mapped to, and that the proved part takes as it takes any other. ------------------------------------------ */

#define PAGE 4096
#define LEAST 32768      /* bytes of a heap's part: the first 16 KiB stay empty, and the next are for its first objects */
#define MOST_REGIONS 1024

_Static_assert(sizeof(off_t) == 8 && sizeof(size_t) == 8 && sizeof(uintptr_t) == 8, "lengths have 64 bits");

/* A mapping. Who looks for one reads the version before and after: one that changes meanwhile isn't the one that holds what is looked for. */
struct region {
    atomic_bool taken;
    atomic_uint_fast64_t version; /* odd while it changes */
    atomic_uintptr_t at, end;
    atomic_uintptr_t owner; /* what the worker or the map points to */
    atomic_size_t parts;    /* that weren't given back, and one while it is opened */
};
static struct region regions[MOST_REGIONS];
static atomic_size_t regions_seen; /* those behind were never taken */

/* What an opening lends: the next allocation of one of these lengths is a part of it. A part is whole pages, and what is asked for a byte less: what lies near is whole
 * pages too, and may be as long. */
static _Thread_local struct {
    uintptr_t at, end;
    size_t each[2];
    struct region *region;
} lent;

static void set_region(struct region *region, uintptr_t at, uintptr_t end) {
    atomic_fetch_add(&region->version, 1);
    atomic_store(&region->at, at);
    atomic_store(&region->end, end);
    atomic_fetch_add(&region->version, 1);
}

static struct region *take_region(void) {
    for (size_t k = 0; k < MOST_REGIONS; k++) {
        bool free = false;
        if (!atomic_compare_exchange_strong(&regions[k].taken, &free, true)) continue;
        size_t seen = atomic_load(&regions_seen);
        while (seen <= k && !atomic_compare_exchange_weak(&regions_seen, &seen, k + 1)) {}
        return &regions[k];
    }
    return NULL;
}

static struct region *region_of(uintptr_t at) {
    if (at % PAGE != 0) return NULL;
    for (size_t k = 0, seen = atomic_load(&regions_seen); k < seen; k++) {
        uint_fast64_t version = atomic_load(&regions[k].version);
        uintptr_t first = atomic_load(&regions[k].at), end = atomic_load(&regions[k].end);
        if (version % 2 == 0 && atomic_load(&regions[k].version) == version && first <= at && at < end) return &regions[k];
    }
    return NULL;
}

/* A part is given back; with the last one the mapping goes, and where the file has no name, the file. */
static void drop_part(struct region *region) {
    if (atomic_fetch_sub(&region->parts, 1) != 1) return;
    uintptr_t at = atomic_load(&region->at), end = atomic_load(&region->end);
    set_region(region, 0, 0);
    atomic_store(&region->owner, 0);
    atomic_store(&region->taken, false);
    munmap((void *)at, end - at);
}

/* A part of what is lent, if an allocation is for one. */
static void *lent_part(size_t bytes, size_t alignment) {
    if (lent.region == NULL || alignment != 1 || (bytes + 1 != lent.each[0] && bytes + 1 != lent.each[1]) || lent.end - lent.at <= bytes) return NULL;
    void *at = (void *)lent.at;
    lent.at += bytes + 1;
    atomic_fetch_add(&lent.region->parts, 1);
    return at;
}

/* In the child of a fork: where a mapping was, nothing else may lie until it is closed, which unmaps that place. */
static void keep_places(void) {
    for (size_t k = 0, seen = atomic_load(&regions_seen); k < seen; k++) {
        uintptr_t at = atomic_load(&regions[k].at), end = atomic_load(&regions[k].end);
        if (atomic_load(&regions[k].version) % 2 != 0 || at == end) continue;
        void *kept = mmap((void *)at, end - at, PROT_NONE, MAP_PRIVATE | MAP_ANONYMOUS | MAP_NORESERVE | MAP_FIXED_NOREPLACE, -1, 0);
        /* (a system before 4.17 takes that for a wish) */
        if (kept != MAP_FAILED && kept != (void *)at) munmap(kept, end - at);
    }
}

static pthread_once_t forks = PTHREAD_ONCE_INIT;
static int forks_refused;

static void see_forks(void) { forks_refused = pthread_atfork(NULL, NULL, keep_places); }

/* How many bytes are mapped for so many of a file: whole ones of its pages, which may be huge. */
static uint64_t in_pages(int fd, uint64_t bytes) {
    struct statfs told;
    if (fstatfs(fd, &told) != 0 || told.f_type != HUGETLBFS_MAGIC) return bytes;
    uint64_t page = (uint64_t)told.f_bsize;
    return (bytes + page - 1) / page * page;
}

/* Takes bytes of a file, so that no write to them can fail for want of room, and lends them. */
static int32_t lend(int fd, uint64_t bytes, size_t each, size_t more_each) {
    if (bytes > INT64_MAX) return errno = EFBIG, FAR_FILE;
    pthread_once(&forks, see_forks);
    if (forks_refused != 0) return errno = forks_refused, FAR_FILE;
    int why = EINTR;
    for (int k = 0; k < 100 && why == EINTR; k++) why = posix_fallocate(fd, 0, (off_t)bytes);
    if (why != 0) return errno = why, FAR_FILE;
    struct region *region = take_region();
    if (region == NULL) return errno = EMFILE, FAR_FILE;
    uint64_t all = in_pages(fd, bytes);
    void *at = mmap(NULL, all, PROT_READ | PROT_WRITE, MAP_SHARED, fd, 0);
    if (at == MAP_FAILED) {
        atomic_store(&region->taken, false);
        return FAR_FILE;
    }
    madvise(at, all, MADV_RANDOM);
    madvise(at, all, MADV_DONTFORK);
    atomic_store(&region->parts, 1);
    set_region(region, (uintptr_t)at, (uintptr_t)at + all);
    lent.at = (uintptr_t)at, lent.end = lent.at + bytes, lent.each[0] = each, lent.each[1] = more_each, lent.region = region;
    return FAR_OK;
}

/* The opening is over: who owns what was lent, if it was opened. */
static int32_t lend_no_more(int32_t status, const void *owner) {
    struct region *region = lent.region;
    lent.region = NULL;
    if (status == FAR_OK) atomic_store(&region->owner, (uintptr_t)owner);
    drop_part(region);
    return status;
}

/* How many bytes each of some heaps has, in whole pages. */
static int32_t share(uint64_t near_bytes, uint64_t objects, uint16_t typical, uint64_t far_bytes, uint32_t *heaps, uint64_t *each) {
    int32_t status = far_heaps(near_bytes, objects, typical, heaps);
    if (status != FAR_OK) return status;
    *each = far_bytes / *heaps / PAGE * PAGE;
    return *each < LEAST ? FAR_FAR : FAR_OK;
}

int32_t far_open_file(struct far_worker *worker, uint64_t near_bytes, uint64_t objects, uint16_t typical, int fd, uint64_t far_bytes) {
    uint32_t heaps = 0;
    uint64_t each = 0;
    if (worker->live) return FAR_OPEN;
    int32_t status = share(near_bytes, objects, typical, far_bytes, &heaps, &each);
    if (status == FAR_OK) status = lend(fd, heaps * each, each, each);
    if (status != FAR_OK) return status;
    status = far_open_reserved(worker, near_bytes, objects, typical, each - 1);
    return lend_no_more(status, worker->at);
}

int32_t far_map_open_file(struct far_map *map, const struct far_map_plan *plan, int fd, uint64_t far_bytes, uint64_t long_far_bytes) {
    uint32_t heaps = 0, long_heaps = 0;
    uint64_t each = 0, long_each = 0;
    if (map->live) return FAR_OPEN;
    int32_t status = share(plan->near_bytes, plan->entries, plan->typical, far_bytes, &heaps, &each);
    if (status == FAR_OK) status = share(plan->long_near_bytes, plan->long_parts, 4088, long_far_bytes, &long_heaps, &long_each);
    if (status == FAR_OK && heaps * each > UINT64_MAX - long_heaps * long_each) errno = EFBIG, status = FAR_FILE;
    if (status == FAR_OK) status = lend(fd, heaps * each + long_heaps * long_each, each, long_each);
    if (status != FAR_OK) return status;
    status = far_map_open_reserved(map, plan, each - 1, long_each - 1);
    return lend_no_more(status, map->at);
}

static int32_t closed(int fd, int32_t status) {
    int why = errno;
    close(fd);
    errno = why;
    return status;
}

/* A file of a folder that has no name, or -1. */
static int nameless(const char *folder) {
    int fd = open(folder, O_TMPFILE | O_RDWR | O_CLOEXEC, 0600);
    if (fd >= 0 || (errno != EOPNOTSUPP && errno != EISDIR && errno != EINVAL)) return fd;
    size_t long_enough = strlen(folder) + sizeof "/foxglovepeg.XXXXXX";
    char *path = malloc(long_enough);
    if (path == NULL) return -1;
    snprintf(path, long_enough, "%s/foxglovepeg.XXXXXX", folder);
    fd = mkostemp(path, O_CLOEXEC);
    /* (a folder may refuse to lose a name) */
    if (fd >= 0 && unlink(path) != 0) fd = closed(fd, -1);
    int why = errno;
    free(path);
    errno = why;
    return fd;
}

int32_t far_open_folder(struct far_worker *worker, uint64_t near_bytes, uint64_t objects, uint16_t typical, const char *folder, uint64_t far_bytes) {
    if (worker->live) return FAR_OPEN;
    int fd = nameless(folder);
    return fd < 0 ? FAR_FILE : closed(fd, far_open_file(worker, near_bytes, objects, typical, fd, far_bytes));
}

int32_t far_map_open_folder(struct far_map *map, const struct far_map_plan *plan, const char *folder, uint64_t far_bytes, uint64_t long_far_bytes) {
    if (map->live) return FAR_OPEN;
    int fd = nameless(folder);
    return fd < 0 ? FAR_FILE : closed(fd, far_map_open_file(map, plan, fd, far_bytes, long_far_bytes));
}

/* Gives back what is resident of a mapping: the file has it. */
static int32_t trim(bool live, const void *owner) {
    if (!live) return FAR_CLOSED;
    for (size_t k = 0, seen = atomic_load(&regions_seen); k < seen; k++) {
        if (atomic_load(&regions[k].owner) != (uintptr_t)owner) continue;
        uintptr_t at = atomic_load(&regions[k].at);
        madvise((void *)at, atomic_load(&regions[k].end) - at, MADV_DONTNEED);
        break;
    }
    return FAR_OK;
}

int32_t far_trim(const struct far_worker *worker) { return trim(worker->live, worker->at); }

int32_t far_map_trim(const struct far_map *map) { return trim(map->live, map->at); }

/* -- The heap. -------------------------------------------------------------------------------------------------------------------------------------- */

struct tried {
    bool ok;
    void *at;
};

/* What a refused call answers points here: never to nothing. */
static char none[16];

static struct tried told(void *at) {
    struct tried answer = {at != NULL, at != NULL ? at : none};
    return answer;
}

HIDDEN struct tried rattle_alloc(size_t bytes, size_t alignment) {
    void *part = bytes % PAGE == PAGE - 1 ? lent_part(bytes, alignment) : NULL;
    return told(part != NULL ? part : malloc(bytes != 0 ? bytes : alignment));
}

HIDDEN void rattle_dealloc(void *at) {
    struct region *region = region_of((uintptr_t)at);
    if (region != NULL) drop_part(region);
    else free(at);
}

HIDDEN struct tried rattle_realloc(void *at, size_t kept, size_t bytes, size_t alignment) {
    if (region_of((uintptr_t)at) == NULL) return told(realloc(at, bytes != 0 ? bytes : alignment));
    /* the proved part doesn't do that to what was lent, but may */
    struct tried fresh = rattle_alloc(bytes, alignment);
    if (!fresh.ok) return fresh;
    memcpy(fresh.at, at, kept < bytes ? kept : bytes);
    rattle_dealloc(at);
    return fresh;
}

const char *far_status_text(int32_t status) {
    switch (status) {
    case FAR_OK: return "done";
    case FAR_MEMORY: return "out of memory";
    case FAR_NO_ROOM: return "nothing near can leave: memory is refused, or the far side is full";
    case FAR_NO_POINTER: return "each heap has its 2048 objects";
    case FAR_LENGTH: return "an object has 1 to 4088 bytes, and a key at most 4086";
    case FAR_NOT_HELD: return "there is no such object";
    case FAR_RANGE: return "no byte was asked for, or they pass the object's end";
    case FAR_DEVICE: return "a far object is lost";
    case FAR_DAMAGED: return "a far object has another length";
    case FAR_EPOCHS_SPENT: return "2^62 rounds were made";
    case FAR_CLOSED: return "it is not open";
    case FAR_OPEN: return "it is open already";
    case FAR_OBJECTS: return "a worker has at most 4294967296 objects";
    case FAR_NEAR: return "too few bytes near for so many objects";
    case FAR_NO_KEY: return "there is no such key";
    case FAR_SHORT: return "a buffer has too little room";
    case FAR_END: return "no entry is left to be told";
    case FAR_FILE: return "the system refused the file";
    case FAR_FAR: return "too few bytes far for so many heaps";
    default: return "no status";
    }
}
