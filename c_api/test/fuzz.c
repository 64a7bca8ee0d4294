/* Calls in any order of several workers and maps: before they are opened, after they are closed, opened or closed twice; with handles that are stale, another
 * worker's, or made up; with lengths that don't fit. Each answer is known to a model.
 *
 *     fuzz CALLS PLACE SEED     PLACE: memory, reserved, file, or a folder */
#include "drawn.h"

#include <inttypes.h>
#include <stdio.h>
#include <stdlib.h>
#include <string.h>

enum { WORKERS = 3, MAPS = 2, HEAPS = 3, POINTERS = 2048, KEYS = 300, LONGEST = 4088, ROOM = 6000, NEAR = 1 << 17 };

struct bytes {
    bool there;
    uint16_t generation;
    size_t len;
    uint8_t *at;
};

struct worker {
    struct far_worker held;
    bool open;
    uint32_t heaps;
    uint64_t count;
    struct bytes objects[HEAPS * POINTERS];
};

struct map {
    struct far_map held;
    bool open;
    size_t count, left; /* left: how many entries are still to be told */
    struct bytes entries[KEYS];
    bool told[KEYS];
};

static struct worker workers[WORKERS];
static struct map maps[MAPS];
static uint8_t bytes[ROOM], out[ROOM];
static uint64_t calls, seed, last;
static const char *place = "memory";

#define CHECK(holds)                                                                           \
    do {                                                                                       \
        if (!(holds)) {                                                                        \
            fprintf(stderr, "fuzz.c:%d: %s (call %" PRIu64 ")\n", __LINE__, #holds, calls);    \
            exit(1);                                                                           \
        }                                                                                      \
    } while (0)

static uint64_t next(void) { return drawn(&seed); }

static uint64_t below(uint64_t most) { return next() % most; }

static void fill(size_t len) {
    uint64_t word = next();
    for (size_t k = 0; k < len; k++) bytes[k] = (uint8_t)(word >> (8 * (k % 8))) ^ (uint8_t)k;
}

static void keep(struct bytes *it, size_t len) {
    free(it->at);
    it->there = true;
    it->len = len;
    it->at = malloc(len + 1);
    CHECK(it->at != NULL);
    memcpy(it->at, bytes, len);
}

static void lose(struct bytes *it) {
    free(it->at);
    it->there = false;
    it->at = NULL;
}

/* ---- workers */

/* The object of a number, if the worker has it. */
static struct bytes *object_of(struct worker *worker, uint64_t handle) {
    uint64_t heap = handle >> 32, pointer = (handle >> 16) & 0xffff;
    if (!worker->open || heap >= worker->heaps || pointer >= POINTERS) return NULL;
    struct bytes *object = &worker->objects[heap * POINTERS + pointer];
    return object->there && object->generation == (handle & 0xffff) ? object : NULL;
}

/* A number: mostly of some worker's object, live or dropped; or one near it; or any. */
static uint64_t number(void) {
    struct worker *worker = &workers[below(WORKERS)];
    uint64_t place = below(below(4) ? POINTERS / 16 : HEAPS * POINTERS), what = below(16);
    uint64_t handle = (place / POINTERS) << 32 | (place % POINTERS) << 16 | worker->objects[place].generation;
    return what == 0 ? next() : what == 1 ? handle ^ (UINT64_C(1) << below(64)) : what == 2 ? handle - 1 : what == 3 ? last : handle;
}

static int32_t missing(struct worker *worker) { return worker->open ? FAR_NOT_HELD : FAR_CLOSED; }

static void end(struct worker *worker) {
    CHECK(far_close(&worker->held) == (worker->open ? FAR_OK : FAR_CLOSED));
    for (size_t k = 0; k < HEAPS * POINTERS; k++) lose(&worker->objects[k]);
    worker->open = false;
    worker->count = 0;
}

static void begin(struct worker *worker) {
    uint16_t typical = (uint16_t)below(70);
    uint64_t objects = below(50) ? 100 : UINT64_MAX - below(3), near_bytes = below(50) ? NEAR : below(4096);
    int32_t wanted = worker->open ? FAR_OPEN : typical == 0 ? FAR_LENGTH : objects > 100 ? FAR_OBJECTS : near_bytes < NEAR ? FAR_NEAR : FAR_OK;
    CHECK(open_in(place, &worker->held, near_bytes, objects, typical) == wanted);
    if (wanted != FAR_OK) return;
    worker->open = true;
    worker->heaps = 1;
    for (size_t k = 0; k < HEAPS * POINTERS; k++) worker->objects[k].generation = 0;
}

static void make(struct worker *worker) {
    size_t len = below(64) ? 1 + below(100) : below(2) ? 0 : below(ROOM);
    bool zeros = below(4) == 0;
    bool is_length = len > 0 && len <= LONGEST;
    uint64_t handle = 77;
    fill(len);
    if (zeros) memset(bytes, 0, len);
    int32_t status = zeros ? far_alloc_zeros(&worker->held, (uint16_t)len, 1, &handle) : far_alloc(&worker->held, bytes, len, 1, &handle);
    CHECK(status == (!worker->open ? FAR_CLOSED : !is_length ? FAR_LENGTH : worker->count == worker->heaps * POINTERS ? FAR_NO_POINTER : FAR_OK));
    if (status != FAR_OK) {
        CHECK(handle == 77);
        return;
    }
    uint64_t heap = handle >> 32, pointer = (handle >> 16) & 0xffff;
    CHECK(heap < worker->heaps && pointer < POINTERS && !worker->objects[heap * POINTERS + pointer].there);
    worker->objects[heap * POINTERS + pointer].generation = (uint16_t)handle;
    keep(&worker->objects[heap * POINTERS + pointer], len);
    worker->count++;
    last = handle;
}

static void drop(struct worker *worker, uint64_t handle) {
    struct bytes *object = object_of(worker, handle);
    CHECK(far_drop(&worker->held, handle) == (object != NULL ? FAR_OK : missing(worker)));
    if (object == NULL) return;
    lose(object);
    object->generation++;
    worker->count--;
    CHECK(far_drop(&worker->held, handle) == FAR_NOT_HELD);
}

/* Reads, writes or exchanges a range that fits or doesn't. */
static void reach(struct worker *worker, uint64_t handle) {
    struct bytes *object = object_of(worker, handle);
    size_t all = object != NULL ? object->len : below(100), odd = below(16);
    size_t from = odd == 0 ? SIZE_MAX - below(4) : below(all + 2), len = odd == 1 ? below(ROOM) : below(all + 2);
    bool fits = len > 0 && from <= all && len <= all - from;
    int32_t wanted = object == NULL ? missing(worker) : fits ? FAR_OK : FAR_RANGE;
    uint64_t what = below(4);
    fill(len);
    memcpy(out, bytes, len);
    if (what < 2) {
        CHECK(far_read(&worker->held, handle, from, out, len) == wanted);
        if (wanted == FAR_OK) CHECK(memcmp(out, object->at + from, len) == 0);
        return;
    }
    CHECK((what == 2 ? far_write(&worker->held, handle, from, bytes, len) : far_exchange(&worker->held, handle, from, out, len)) == wanted);
    if (what == 3) CHECK(memcmp(out, wanted == FAR_OK ? object->at + from : bytes, len) == 0);
    if (wanted == FAR_OK) memcpy(object->at + from, bytes, len);
}

static void ask(struct worker *worker, uint64_t handle) {
    struct bytes *object = object_of(worker, handle);
    struct far_statistics all;
    uint16_t len = 77;
    CHECK(far_length(&worker->held, handle, &len) == (object != NULL ? FAR_OK : missing(worker)));
    CHECK(len == (object != NULL ? object->len : 77));
    CHECK(far_holds(&worker->held, handle) == (object != NULL ? FAR_OK : missing(worker)));
    CHECK(far_statistics(&worker->held, &all) == (worker->open ? FAR_OK : FAR_CLOSED));
    CHECK(!worker->open || (all.near_objects + all.far_objects == worker->count && all.heaps == worker->heaps));
    if (worker->open && worker->heaps == HEAPS) return;
    if (below(64) == 0 || !worker->open) CHECK(far_add_heap(&worker->held) == (worker->open ? FAR_OK : FAR_CLOSED));
    else return;
    worker->heaps += worker->open;
}

static void play_worker(struct worker *worker) {
    uint64_t what = below(512);
    bool grows = (calls >> 16) % 2 == 0; /* few objects are dropped: until no pointer is left */
    if (what == 0) what = below(32);
    if (what == 0) end(worker);
    else if (what < 8) begin(worker);
    else if (what < 140) make(worker);
    else if (what < 240 && (!grows || what < 150)) drop(worker, number());
    else if (what < 480) reach(worker, number());
    else ask(worker, number());
}

/* ---- maps */

static void end_map(struct map *map) {
    CHECK(far_map_close(&map->held) == (map->open ? FAR_OK : FAR_CLOSED));
    for (size_t k = 0; k < KEYS; k++) lose(&map->entries[k]);
    map->open = false;
    map->count = map->left = 0;
}

static void begin_map(struct map *map) {
    struct far_map_plan plan = {NEAR, KEYS, NEAR, KEYS, next(), next(), (uint16_t)below(70)};
    if (below(50) == 0) plan.long_near_bytes = below(4096);
    int32_t wanted = map->open ? FAR_OPEN : plan.typical == 0 ? FAR_LENGTH : plan.long_near_bytes < NEAR ? FAR_NEAR : FAR_OK;
    CHECK(open_map_in(place, &map->held, &plan) == wanted);
    map->open = map->open || wanted == FAR_OK;
}

static void put(struct map *map, size_t key) {
    size_t key_len = below(200) ? 2 + key % 30 : 4087 + below(900), len = below(50) ? below(200) : below(ROOM);
    uint8_t words[5000] = {(uint8_t)key, (uint8_t)(key >> 8)};
    fill(len);
    int32_t wanted = !map->open ? FAR_CLOSED : key_len > 4086 ? FAR_LENGTH : FAR_OK;
    CHECK(far_map_put(&map->held, words, key_len, bytes, len) == wanted);
    map->left = 0;
    if (wanted != FAR_OK) return;
    map->count += !map->entries[key].there;
    keep(&map->entries[key], len);
}

static void get(struct map *map, size_t key) {
    uint8_t words[32] = {(uint8_t)key, (uint8_t)(key >> 8)};
    struct bytes *entry = &map->entries[key];
    size_t len = 77, room = below(2) ? ROOM : below(300), key_len = 2 + key % 30;
    int32_t none = map->open ? FAR_NO_KEY : FAR_CLOSED, wanted = !entry->there ? none : room < entry->len ? FAR_SHORT : FAR_OK;
    CHECK(far_map_get(&map->held, words, key_len, out, room, &len) == wanted);
    CHECK(len == (entry->there ? entry->len : 77));
    if (wanted == FAR_OK) CHECK(memcmp(out, entry->at, len) == 0);
    CHECK(far_map_holds(&map->held, words, key_len) == (entry->there ? FAR_OK : none));
}

static void take_out(struct map *map, size_t key) {
    uint8_t words[32] = {(uint8_t)key, (uint8_t)(key >> 8)};
    struct bytes *entry = &map->entries[key];
    CHECK(far_map_remove(&map->held, words, 2 + key % 30) == (entry->there ? FAR_OK : map->open ? FAR_NO_KEY : FAR_CLOSED));
    map->count -= entry->there;
    map->left = 0;
    lose(entry);
}

/* An entry that wasn't told yet; or it begins anew. */
static void walk(struct map *map) {
    uint8_t words[32];
    size_t key_len = 77, len = 77, key_room = below(4) ? 32 : below(20), room = below(4) ? ROOM : below(100);
    if (below(200) == 0) {
        CHECK(far_map_begin(&map->held) == (map->open ? FAR_OK : FAR_CLOSED));
        map->left = map->count;
        for (size_t k = 0; k < KEYS; k++) map->told[k] = false;
        return;
    }
    int32_t status = far_map_next(&map->held, words, key_room, &key_len, out, room, &len);
    if (map->left == 0) {
        CHECK(status == (map->open ? FAR_END : FAR_CLOSED) && key_len == 77 && len == 77);
        return;
    }
    CHECK(status == (key_len > key_room || len > room ? FAR_SHORT : FAR_OK));
    if (status == FAR_SHORT) return;
    size_t key = words[0] | (size_t)words[1] << 8;
    CHECK(key_len == 2 + key % 30 && key < KEYS && map->entries[key].there && !map->told[key]);
    CHECK(len == map->entries[key].len && memcmp(out, map->entries[key].at, len) == 0);
    map->told[key] = true;
    map->left--;
}

static void ask_map(struct map *map) {
    struct far_statistics short_entries, long_parts;
    size_t len = 77;
    int32_t wanted = map->open ? FAR_OK : FAR_CLOSED;
    CHECK(far_map_length(&map->held, &len) == wanted && len == (map->open ? map->count : 77));
    CHECK(far_map_statistics(&map->held, &short_entries, &long_parts) == wanted);
    if (below(500) != 0) return;
    CHECK(far_map_clear(&map->held) == wanted);
    for (size_t k = 0; k < KEYS; k++) lose(&map->entries[k]);
    map->count = map->left = 0;
}

static void play_map(struct map *map) {
    uint64_t what = below(512), key = below(KEYS);
    if (what == 0) what = below(32);
    if (what == 0) end_map(map);
    else if (what < 8) begin_map(map);
    else if ((calls >> 12) % 2 == 0 && what < 300) walk(map); /* phases with few changes: a walk is ended by each */
    else if ((calls >> 12) % 2 == 0 && what < 500) get(map, key);
    else if (what < 180) put(map, key);
    else if (what < 400) get(map, key);
    else if (what < 500) take_out(map, key);
    else ask_map(map);
}

int main(int count, char **words) {
    uint64_t all = count > 1 ? strtoull(words[1], NULL, 10) : 100000;
    if (count > 2) place = words[2];
    seed = count > 3 ? strtoull(words[3], NULL, 10) : 1;
    for (; calls < all; calls++) {
        if (below(3) != 0) play_worker(&workers[below(WORKERS)]);
        else play_map(&maps[below(MAPS)]);
    }
    for (size_t k = 0; k < WORKERS; k++) end(&workers[k]);
    for (size_t k = 0; k < MAPS; k++) end_map(&maps[k]);
    return 0;
}
