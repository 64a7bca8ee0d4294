/* Far sides that are full, and files that the system refuses: each is a status, no object is lost, and what was mapped is gone.
 *
 *     full FOLDER [SMALL]     SMALL: a folder with room for less than 4 MiB */
#define _GNU_SOURCE
#include "drawn.h"

#include <errno.h>
#include <fcntl.h>
#include <inttypes.h>
#include <limits.h>
#include <signal.h>
#include <stdlib.h>
#include <sys/mman.h>
#include <sys/resource.h>
#include <sys/stat.h>
#include <sys/wait.h>
#include <unistd.h>

enum { OBJECTS = 2048, LEN = 1000, NEAR = 1 << 17, WORKERS = 1024 };

#define CHECK(holds)                                                       \
    do {                                                                   \
        if (!(holds)) {                                                    \
            fprintf(stderr, "full.c:%d: %s (errno %d)\n", __LINE__, #holds, errno); \
            exit(1);                                                       \
        }                                                                  \
    } while (0)

static const struct far_map_plan PLAN = {NEAR, OBJECTS, NEAR, OBJECTS, 3, 5, 64};

/* How many files are mapped to be written. */
static int mapped(void) {
    FILE *maps = fopen("/proc/self/maps", "r");
    char line[4096];
    int count = 0;
    CHECK(maps != NULL);
    while (fgets(line, sizeof line, maps) != NULL) count += strstr(line, " rw-s ") != NULL;
    fclose(maps);
    return count;
}

/* How many bytes of such files are in memory. */
static uint64_t resident(void) {
    FILE *maps = fopen("/proc/self/smaps", "r");
    char line[4096];
    uint64_t all = 0, some;
    bool counts = false;
    CHECK(maps != NULL);
    while (fgets(line, sizeof line, maps) != NULL) {
        if (strchr(line, '-') != NULL && strstr(line, "kB") == NULL) counts = strstr(line, " rw-s ") != NULL;
        if (counts && sscanf(line, "Rss: %" SCNu64, &some) == 1) all += some * 1024;
    }
    fclose(maps);
    return all;
}

static void fill(uint64_t number, uint8_t bytes[LEN]) {
    memset(bytes, (int)(number % 251), LEN);
    memcpy(bytes, &number, sizeof number);
}

/* Makes objects until no more leaves, which so many have then; all are there, and after a few are dropped there is room. */
static void play(struct far_worker *worker, uint64_t fits) {
    static uint64_t handles[OBJECTS];
    uint8_t bytes[LEN], out[LEN];
    uint64_t count = 0, handle = 7;
    int32_t status = FAR_OK;
    struct far_statistics all;
    for (; count < OBJECTS; count++) {
        fill(count, bytes);
        status = far_alloc(worker, bytes, LEN, 1, &handle);
        if (status != FAR_OK) break;
        handles[count] = handle;
    }
    CHECK(status == FAR_NO_ROOM && count > 0 && handle == handles[count - 1]);
    CHECK(far_statistics(worker, &all) == FAR_OK && all.near_objects + all.far_objects == count && all.device_faults > 0);
    CHECK(all.far_objects == fits);
    CHECK(far_trim(worker) == FAR_OK);
    uint64_t refused = 0;
    for (uint64_t k = 0; k < count; k++) {
        fill(k, bytes);
        CHECK(far_read(worker, handles[k], 0, out, LEN) == FAR_OK && memcmp(bytes, out, LEN) == 0);
        status = far_write(worker, handles[k], 9, bytes + 9, 1);
        CHECK(status == FAR_OK || status == FAR_NO_ROOM);
        refused += status != FAR_OK;
    }
    CHECK((refused > 0) == (fits > 0));
    for (uint64_t k = 0; k < count; k += 2) CHECK(far_drop(worker, handles[k]) == FAR_OK);
    fill(9, bytes);
    CHECK(far_alloc(worker, bytes, LEN, 1, &handle) == FAR_OK);
    for (uint64_t k = 1; k < count; k += 2) {
        fill(k, bytes);
        CHECK(far_read(worker, handles[k], 0, out, LEN) == FAR_OK && memcmp(bytes, out, LEN) == 0);
    }
    CHECK(far_close(worker) == FAR_OK && mapped() == 0);
}

/* A file that can't be mapped takes no place of those that there are. */
static void unmappable(const char *folder) {
    char path[PATH_MAX];
    struct far_worker worker = FAR_WORKER_NONE;
    snprintf(path, sizeof path, "%s/written", folder);
    int fd = open(path, O_WRONLY | O_CREAT, 0600);
    CHECK(fd >= 0 && unlink(path) == 0);
    for (int k = 0; k <= WORKERS; k++) CHECK(far_open_file(&worker, NEAR, OBJECTS, 64, fd, 1 << 16) == FAR_FILE && errno == EACCES);
    close(fd);
}

/* How many of the first descriptors are open. */
static int descriptors(void) {
    int count = 0;
    for (int fd = 0; fd < 64; fd++) count += fcntl(fd, F_GETFD) != -1;
    return count;
}

/* What the system refuses. */
static void refuse(const char *folder) {
    struct far_worker worker = FAR_WORKER_NONE;
    struct far_map map = FAR_MAP_NONE;
    struct far_map_plan few = PLAN;
    int before = descriptors(), pipes[2], fd = open(folder, O_RDONLY | O_DIRECTORY);
    uint64_t all = 1 << 22;
    CHECK(pipe(pipes) == 0);
    CHECK(far_open_file(&worker, NEAR, OBJECTS, 64, -1, all) == FAR_FILE && errno == EBADF);
    CHECK(far_open_file(&worker, NEAR, OBJECTS, 64, pipes[1], all) == FAR_FILE && errno == ESPIPE);
    CHECK(far_open_file(&worker, NEAR, OBJECTS, 64, fd, all) == FAR_FILE);
    CHECK(far_open_file(&worker, NEAR, OBJECTS, 64, pipes[1], UINT64_MAX) == FAR_FILE && errno == EFBIG);
    CHECK(far_open_folder(&worker, NEAR, OBJECTS, 64, "/no/such/folder", all) == FAR_FILE && errno == ENOENT);
    CHECK(far_map_open_folder(&map, &PLAN, "/no/such/folder", all, all) == FAR_FILE && errno == ENOENT);
    CHECK(far_open_folder(&worker, NEAR, OBJECTS, 64, folder, 32767) == FAR_FAR);
    CHECK(far_open_folder(&worker, NEAR, OBJECTS, 0, folder, all) == FAR_LENGTH);
    CHECK(far_open_folder(&worker, 1, OBJECTS, 64, folder, all) == FAR_NEAR);
    CHECK(far_map_open_folder(&map, &PLAN, folder, all, 32767) == FAR_FAR);
    CHECK(far_map_open_folder(&map, &PLAN, folder, UINT64_MAX, UINT64_MAX) == FAR_FILE && errno == EFBIG);
    CHECK(far_map_open_folder(&map, &PLAN, folder, (UINT64_C(1) << 63) + all, (UINT64_C(1) << 63) + all) == FAR_FILE && errno == EFBIG);
    CHECK(far_least_near(OBJECTS, 4088, &few.long_near_bytes) == FAR_OK);
    few.long_near_bytes--;
    CHECK(far_map_open_folder(&map, &few, folder, all, 32767) == FAR_NEAR);
    CHECK(!worker.live && worker.at == NULL && !map.live && map.at == NULL && mapped() == 0);
    CHECK(far_open_folder(&worker, NEAR, OBJECTS, 64, folder, 32768) == FAR_OK && mapped() == 1);
    CHECK(far_open_folder(&worker, NEAR, OBJECTS, 64, folder, all) == FAR_OPEN && mapped() == 1);
    CHECK(far_close(&worker) == FAR_OK && far_trim(&worker) == FAR_CLOSED && mapped() == 0);
    CHECK(far_map_open_folder(&map, &PLAN, folder, all, all) == FAR_OK && far_map_trim(&map) == FAR_OK);
    CHECK(far_map_close(&map) == FAR_OK && mapped() == 0);
    unmappable(folder);
    close(pipes[0]);
    close(pipes[1]);
    if (fd >= 0) close(fd);
    CHECK(descriptors() == before);
}

/* Puts entries with values of so many bytes until one is refused; how many weren't. */
static uint32_t put(struct far_map *map, uint32_t key, uint32_t count, size_t len) {
    static uint8_t value[6000];
    uint32_t k = 0;
    int32_t status = FAR_OK;
    for (; k < count && status == FAR_OK; k++, key++) status = far_map_put(map, (const uint8_t *)&key, sizeof key, value, len);
    CHECK(status == FAR_OK || status == FAR_NO_ROOM);
    return status == FAR_OK ? k : k - 1;
}

/* A map whose far side is full: what is removed makes room for others, and no entry is lost. */
static void relieve(void) {
    struct far_map map = FAR_MAP_NONE;
    uint8_t out[LEN];
    size_t len;
    CHECK(far_map_open_reserved(&map, &PLAN, 1 << 18, 0) == FAR_OK);
    uint32_t count = put(&map, 0, OBJECTS, 1000), k;
    CHECK(count > 240 && count < OBJECTS && put(&map, OBJECTS, 1, 1000) == 0);
    for (k = 0; k < count; k += 2) CHECK(far_map_remove(&map, (const uint8_t *)&k, sizeof k) == FAR_OK);
    CHECK(put(&map, OBJECTS, count / 2 - 1, 1000) == count / 2 - 1);
    for (k = 1; k < count; k += 2) CHECK(far_map_get(&map, (const uint8_t *)&k, sizeof k, out, sizeof out, &len) == FAR_OK && len == sizeof out);
    CHECK(far_map_close(&map) == FAR_OK);
}

/* Entries and long parts have each their own bytes, near and far. */
static void sides(void) {
    enum { SHORTS = 1000, LONGS = 300, ROOM = 1 << 23 };
    static const struct far_map_plan WIDE = {8 * NEAR, OBJECTS, NEAR, OBJECTS, 3, 5, 64}, LONG_WIDE = {NEAR, OBJECTS, 8 * NEAR, OBJECTS, 3, 5, 64};
    struct far_map map = FAR_MAP_NONE;
    struct far_statistics shorts, longs;
    uint32_t count, parts;
    CHECK(far_map_open_reserved(&map, &PLAN, ROOM, 0) == FAR_OK);
    CHECK(put(&map, 0, SHORTS, 1000) == SHORTS);
    CHECK((count = put(&map, SHORTS, LONGS, 6000)) > 0 && count < LONGS);
    CHECK(far_map_statistics(&map, &shorts, &longs) == FAR_OK && shorts.near_objects + shorts.far_objects == SHORTS);
    parts = (uint32_t)(longs.near_objects + longs.far_objects);
    CHECK(parts == 2 * count && longs.far_objects == 0 && far_map_close(&map) == FAR_OK);
    CHECK(far_map_open_reserved(&map, &PLAN, 0, ROOM) == FAR_OK);
    CHECK(put(&map, 0, LONGS, 6000) == LONGS);
    CHECK((count = put(&map, LONGS, SHORTS, 1000)) > 0 && count < SHORTS);
    CHECK(far_map_statistics(&map, &shorts, &longs) == FAR_OK && shorts.near_objects == count && shorts.far_objects == 0);
    CHECK(longs.near_objects + longs.far_objects == 2 * LONGS && longs.far_objects > 0 && far_map_close(&map) == FAR_OK);
    CHECK(far_map_open_memory(&map, &WIDE) == FAR_OK && far_map_statistics(&map, &shorts, &longs) == FAR_OK);
    CHECK(shorts.unused == 8 * NEAR && longs.unused == NEAR && far_map_close(&map) == FAR_OK);
    CHECK(far_map_open_memory(&map, &LONG_WIDE) == FAR_OK && far_map_statistics(&map, &shorts, &longs) == FAR_OK);
    CHECK(shorts.unused == NEAR && longs.unused == 8 * NEAR && far_map_close(&map) == FAR_OK);
}

/* What is resident of a file is given back by its own worker, and comes again. */
static void trims(const char *folder) {
    enum { BYTES = 9 << 18, SOME = 1 << 20 };
    static uint64_t handles[2][OBJECTS];
    struct far_worker workers[2] = {FAR_WORKER_NONE, FAR_WORKER_NONE};
    uint8_t bytes[LEN], out[LEN];
    for (int k = 0; k < 2; k++) {
        CHECK(far_open_folder(&workers[k], NEAR, OBJECTS, 64, folder, BYTES) == FAR_OK);
        for (uint64_t n = 0; n < OBJECTS; n++) {
            fill(n, bytes);
            CHECK(far_alloc(&workers[k], bytes, LEN, 1, &handles[k][n]) == FAR_OK);
        }
    }
    uint64_t all = resident();
    CHECK(all > 3 * SOME && far_trim(&workers[1]) == FAR_OK);
    uint64_t first = resident();
    CHECK(first > SOME && first < all - SOME && far_trim(&workers[1]) == FAR_OK && resident() == first);
    CHECK(far_trim(&workers[0]) == FAR_OK && resident() == 0);
    for (uint64_t n = 0; n < OBJECTS; n++) {
        fill(n, bytes);
        CHECK(far_read(&workers[n % 2], handles[n % 2][n], 0, out, LEN) == FAR_OK && memcmp(bytes, out, LEN) == 0);
    }
    CHECK(far_close(&workers[0]) == FAR_OK && far_close(&workers[1]) == FAR_OK && mapped() == 0);
}

/* A file is as long as was asked, in whole pages for each heap. */
static void lengths(void) {
    struct far_worker worker = FAR_WORKER_NONE;
    struct far_map map = FAR_MAP_NONE;
    struct stat told;
    int fd = memfd_create("long", 0), other = memfd_create("longer", 0);
    CHECK(far_open_file(&worker, 4 * NEAR, 4 * OBJECTS, 64, fd, (1 << 20) + 16383) == FAR_OK);
    CHECK(fstat(fd, &told) == 0 && told.st_size == 1 << 20 && far_close(&worker) == FAR_OK);
    CHECK(far_map_open_file(&map, &PLAN, other, (1 << 20) + 4095, (1 << 19) + 4095) == FAR_OK);
    CHECK(fstat(other, &told) == 0 && told.st_size == (1 << 20) + (1 << 19) && far_map_close(&map) == FAR_OK);
    close(fd);
    close(other);
    /* (refused where there are no huge pages) */
    fd = memfd_create("huge", MFD_HUGETLB);
    if (far_open_file(&worker, NEAR, OBJECTS, 64, fd, (3 << 20) + 4096) == FAR_OK) CHECK(far_close(&worker) == FAR_OK);
    CHECK(!worker.live && mapped() == 0);
    if (fd >= 0) close(fd);
}

/* Each status has words of its own. */
static void texts(void) {
    static const struct {
        int32_t status;
        const char *word;
    } WORDS[] = {{FAR_OK, "done"}, {FAR_MEMORY, "memory"}, {FAR_NO_ROOM, "can leave"}, {FAR_NO_POINTER, "2048"}, {FAR_LENGTH, "4088"}, {FAR_NOT_HELD, "no such object"}, {FAR_RANGE, "no byte"},
        {FAR_DEVICE, "lost"}, {FAR_DAMAGED, "another length"}, {FAR_EPOCHS_SPENT, "rounds"}, {FAR_CLOSED, "not open"}, {FAR_OPEN, "already"}, {FAR_OBJECTS, "4294967296"}, {FAR_NEAR, "near"},
        {FAR_NO_KEY, "key"}, {FAR_SHORT, "buffer"}, {FAR_END, "entry"}, {FAR_FILE, "file"}, {FAR_FAR, "far for"}};
    enum { ALL = sizeof WORDS / sizeof *WORDS };
    for (int32_t status = -2; status < 40; status++) {
        size_t k = 0;
        while (k < ALL && WORDS[k].status != status) k++;
        CHECK(strstr(far_status_text(status), k < ALL ? WORDS[k].word : "no status") != NULL);
    }
}

/* As many bytes far as near: what lies near isn't in the file, where each part begins with 16 KiB that stay empty. */
static void equal(void) {
    static uint8_t bytes[16384], zeros[16384];
    struct far_worker worker = FAR_WORKER_NONE;
    struct far_statistics all;
    uint64_t handle, each = 1 << 18, heaps = 4;
    int fd = memfd_create("equal", 0);
    memset(bytes, 7, sizeof bytes);
    CHECK(far_open_file(&worker, heaps * each, heaps * OBJECTS, 64, fd, heaps * each) == FAR_OK);
    while (far_alloc(&worker, bytes, 248, 1, &handle) == FAR_OK) {}
    CHECK(far_statistics(&worker, &all) == FAR_OK && all.heaps == heaps && all.far_objects > 3000 && far_close(&worker) == FAR_OK);
    for (uint64_t k = 0; k < heaps; k++) CHECK(pread(fd, bytes, sizeof bytes, (off_t)(k * each)) == sizeof bytes && memcmp(bytes, zeros, sizeof bytes) == 0);
    close(fd);
}

/* A child of a fork takes memory, which may lie where the mapping was, and closes what it has of its parent: its own memory stays. */
static void parted(const char *folder) {
    enum { BYTES = 1 << 22, PIECES = 8 };
    struct far_worker worker = FAR_WORKER_NONE, other = FAR_WORKER_NONE;
    uint64_t handle;
    uint8_t byte = 7;
    int status = 0;
    CHECK(far_open_folder(&worker, NEAR, OBJECTS, 64, folder, BYTES) == FAR_OK && far_alloc(&worker, &byte, 1, 1, &handle) == FAR_OK);
    CHECK(far_open_folder(&other, NEAR, OBJECTS, 64, folder, BYTES) == FAR_OK && mapped() == 2);
    pid_t child = fork();
    if (child == 0) {
        CHECK(mapped() == 0);
        uint8_t *own[PIECES];
        for (int k = 0; k < PIECES; k++) {
            own[k] = mmap(NULL, BYTES, PROT_READ | PROT_WRITE, MAP_PRIVATE | MAP_ANONYMOUS, -1, 0);
            memset(own[k], k + 1, BYTES);
        }
        CHECK(far_trim(&worker) == FAR_OK && far_close(&worker) == FAR_OK && far_close(&other) == FAR_OK && mapped() == 0);
        for (int k = 0; k < PIECES; k++) CHECK(own[k][0] == k + 1 && own[k][BYTES / 2] == k + 1 && own[k][BYTES - 1] == k + 1);
        CHECK(far_open_folder(&worker, NEAR, OBJECTS, 64, folder, BYTES) == FAR_OK && mapped() == 1 && far_close(&worker) == FAR_OK);
        _exit(0);
    }
    CHECK(child > 0 && waitpid(child, &status, 0) == child && WIFEXITED(status) && WEXITSTATUS(status) == 0);
    byte = 0;
    CHECK(far_read(&worker, handle, 0, &byte, 1) == FAR_OK && byte == 7 && far_close(&worker) == FAR_OK && far_close(&other) == FAR_OK && mapped() == 0);
}

/* A folder that has no room. */
static void overfill(const char *folder, int why) {
    struct far_worker worker = FAR_WORKER_NONE;
    CHECK(far_open_folder(&worker, NEAR, OBJECTS, 64, folder, 1 << 22) == FAR_FILE && errno == why);
    CHECK(!worker.live && mapped() == 0);
    CHECK(far_open_folder(&worker, NEAR, OBJECTS, 64, folder, 1 << 18) == FAR_OK);
    play(&worker, 240);
}

/* As many as may be, and one more. */
static void crowd(const char *folder) {
    static struct far_worker workers[WORKERS];
    struct far_worker other = FAR_WORKER_NONE;
    for (int k = 0; k < WORKERS; k++) CHECK(far_open_folder(&workers[k], NEAR, 1, 64, folder, 1 << 16) == FAR_OK);
    CHECK(far_open_folder(&other, NEAR, 1, 64, folder, 1 << 16) == FAR_FILE && errno == EMFILE && mapped() == WORKERS);
    /* (the first place is taken again while others are open, and these are closed as well) */
    CHECK(far_close(&workers[0]) == FAR_OK && far_open_folder(&other, NEAR, 1, 64, folder, 1 << 16) == FAR_OK && mapped() == WORKERS);
    for (int k = 1; k < WORKERS; k++) CHECK(far_close(&workers[k]) == FAR_OK);
    CHECK(mapped() == 1 && far_close(&other) == FAR_OK && mapped() == 0);
}

static struct far_statistics statistics_of(struct far_worker *worker) {
    struct far_statistics all;
    CHECK(far_statistics(worker, &all) == FAR_OK);
    return all;
}

/* Reads the first bytes of four objects. */
static void look(struct far_worker *worker, const uint64_t handles[4]) {
    uint8_t bytes[9];
    for (int k = 0; k < 4; k++) CHECK(far_read(worker, handles[k], 0, bytes, sizeof bytes) == FAR_OK);
}

/* What is told of objects of 248 bytes, each 256 near: at first all are near; then some leave; four are read where they lie, are brought, and leave unchanged. */
static void told(void) {
    enum { BYTES = 248, SOME = 100, MORE = 700, LATER = 600 };
    static uint64_t handles[SOME + MORE + LATER];
    struct far_worker worker = FAR_WORKER_NONE;
    uint8_t bytes[BYTES] = {7};
    int made = 0;
    CHECK(far_open_memory(&worker, NEAR, OBJECTS, BYTES) == FAR_OK);
    while (made < SOME) CHECK(far_alloc(&worker, bytes, BYTES, 1, &handles[made++]) == FAR_OK);
    look(&worker, handles);
    CHECK(far_drop(&worker, handles[9]) == FAR_OK);
    struct far_statistics all = statistics_of(&worker);
    CHECK(all.near_objects == 99 && all.far_objects == 0 && all.live == 99 * 256 && all.dead == 256 && all.unused == NEAR - SOME * 256 && all.far_bytes == 0 && all.heaps == 1);
    CHECK(all.accesses == 4 && all.fetches + all.looks + all.evictions + all.writes_spared + all.moves + all.rounds + all.device_faults == 0);
    while (made < SOME + MORE) CHECK(far_alloc(&worker, bytes, BYTES, 1, &handles[made++]) == FAR_OK);
    all = statistics_of(&worker);
    CHECK(all.far_objects > 100 && all.near_objects == 799 - all.far_objects && all.evictions == all.far_objects && all.far_bytes == all.far_objects * BYTES && all.live == all.near_objects * 256);
    CHECK(all.moves > 0 && all.moves < 9 && all.rounds > 0 && all.writes_spared == 0);
    look(&worker, handles + 20);
    all = statistics_of(&worker);
    CHECK(all.looks == 4 && all.fetches == 0 && all.accesses == 8);
    look(&worker, handles + 20);
    all = statistics_of(&worker);
    CHECK(all.looks == 4 && all.fetches == 4 && all.accesses == 12);
    while (made < SOME + MORE + LATER) CHECK(far_alloc(&worker, bytes, BYTES, 1, &handles[made++]) == FAR_OK);
    all = statistics_of(&worker);
    CHECK(all.writes_spared == 4 && all.rounds > 9 && all.device_faults == 0 && far_close(&worker) == FAR_OK);
}

int main(int count, char **words) {
    struct far_worker worker = FAR_WORKER_NONE;
    struct rlimit few = {1 << 20, RLIM_INFINITY};
    if (count < 2) return 2;
    refuse(words[1]);
    CHECK(far_open_reserved(&worker, NEAR, OBJECTS, 64, 1 << 18) == FAR_OK);
    play(&worker, 240);
    CHECK(far_open_reserved(&worker, NEAR, OBJECTS, 64, 0) == FAR_OK);
    play(&worker, 0);
    crowd(words[1]);
    trims(words[1]);
    lengths();
    texts();
    told();
    equal();
    sides();
    relieve();
    parted(words[1]);
    if (count > 2) overfill(words[2], ENOSPC);
    signal(SIGXFSZ, SIG_IGN);
    CHECK(setrlimit(RLIMIT_FSIZE, &few) == 0);
    overfill(words[1], EFBIG);
    return 0;
}
