/* Calls of a map at random beside a model: each status, each length, and each byte that is read.
 *
 *     map CALLS PLACE SEED     PLACE: memory, reserved, file, or a folder */
#include "drawn.h"

#include <inttypes.h>
#include <stdio.h>
#include <stdlib.h>
#include <string.h>

enum { KEYS = 5000, LONGEST_KEY = 4086, LONGEST = 20000 };

struct entry {
    bool there, told;
    size_t len;
    uint8_t *value;
};

struct model {
    struct far_map map;
    struct entry entries[KEYS];
    uint8_t key[LONGEST_KEY + 1], told[LONGEST_KEY], value[LONGEST], out[LONGEST];
    uint64_t count, calls, seed;
};

static const struct far_map_plan PLAN = {1 << 19, KEYS, 1 << 18, KEYS, 3, 5, 64};

#define CHECK(holds)                                                                                   \
    do {                                                                                               \
        if (!(holds)) {                                                                                \
            fprintf(stderr, "map.c:%d: %s (call %" PRIu64 ")\n", __LINE__, #holds, model->calls);      \
            exit(1);                                                                                   \
        }                                                                                              \
    } while (0)

static uint64_t next(struct model *model) { return drawn(&model->seed); }

/* Writes the key of a number to model->key, and tells how long it is: 0 has none, and each 97th is as long as a key may be. */
static size_t key_of(struct model *model, size_t number) {
    size_t len = number == 0 ? 0 : number % 97 == 0 ? LONGEST_KEY : 4 + number % 40;
    for (size_t k = 0; k < len; k++) model->key[k] = (uint8_t)(number >> (8 * (k % 2)));
    return len;
}

static size_t value_len(struct model *model) {
    uint64_t word = next(model);
    return word % 32 == 0 ? (word >> 8) % LONGEST : word % 32 == 1 ? 0 : (word >> 8) % 200;
}

static void put(struct model *model, size_t number) {
    struct entry *entry = &model->entries[number];
    size_t key_len = key_of(model, number), len = value_len(model);
    for (size_t k = 0; k < len; k++) model->value[k] = (uint8_t)(next(model) >> 9);
    CHECK(far_map_put(&model->map, model->key, key_len, model->value, len) == FAR_OK);
    model->count += !entry->there;
    free(entry->value);
    *entry = (struct entry){true, false, len, malloc(len + 1)};
    CHECK(entry->value != NULL);
    memcpy(entry->value, model->value, len);
}

static void get(struct model *model, size_t number) {
    struct entry *entry = &model->entries[number];
    size_t key_len = key_of(model, number), told = 77, room = next(model) % 2 ? LONGEST : entry->len;
    uint8_t behind = model->out[LONGEST - 1] = model->out[entry->len] = (uint8_t)number;
    if (!entry->there) {
        CHECK(far_map_get(&model->map, model->key, key_len, model->out, LONGEST, &told) == FAR_NO_KEY && told == 77 && model->out[0] == behind);
        CHECK(far_map_holds(&model->map, model->key, key_len) == FAR_NO_KEY);
        return;
    }
    CHECK(far_map_get(&model->map, model->key, key_len, model->out, room, &told) == FAR_OK && told == entry->len);
    CHECK(memcmp(model->out, entry->value, told) == 0 && model->out[told] == behind && model->out[LONGEST - 1] == behind);
    CHECK(far_map_holds(&model->map, model->key, key_len) == FAR_OK);
    if (entry->len == 0) return;
    uint8_t other = model->out[0] = (uint8_t)~entry->value[0];
    told = 77;
    CHECK(far_map_get(&model->map, model->key, key_len, model->out, next(model) % entry->len, &told) == FAR_SHORT && told == entry->len);
    CHECK(model->out[0] == other);
}

static void take_out(struct model *model, size_t number) {
    struct entry *entry = &model->entries[number];
    size_t key_len = key_of(model, number);
    CHECK(far_map_remove(&model->map, model->key, key_len) == (entry->there ? FAR_OK : FAR_NO_KEY));
    CHECK(far_map_remove(&model->map, model->key, key_len) == FAR_NO_KEY);
    model->count -= entry->there;
    free(entry->value);
    *entry = (struct entry){false, false, 0, NULL};
}

static void clear(struct model *model) {
    CHECK(far_map_clear(&model->map) == FAR_OK);
    for (size_t k = 0; k < KEYS; k++) free(model->entries[k].value);
    memset(model->entries, 0, sizeof model->entries);
    model->count = 0;
}

/* The number of the key in model->told. */
static size_t number_of(struct model *model, size_t len) {
    if (len == 0) return 0;
    for (size_t k = 2; k < len; k++) CHECK(model->told[k] == model->told[k % 2]);
    return model->told[0] | (size_t)model->told[1] << 8;
}

/* What has too little room is as it was, and so is what lies behind. */
static void mark(struct model *model) {
    memset(model->told, 177, LONGEST_KEY);
    memset(model->out, 177, LONGEST);
}

static void is_marked(const struct model *model, size_t key_len, size_t len) {
    for (size_t k = key_len; k < LONGEST_KEY; k++) CHECK(model->told[k] == 177);
    for (size_t k = len; k < LONGEST; k++) CHECK(model->out[k] == 177);
}

/* Each entry is told once, in buffers that have room or haven't, with look-ups between. */
static void walk(struct model *model) {
    size_t key_len = 77, len = 77, told = 0;
    CHECK(far_map_begin(&model->map) == FAR_OK);
    for (;;) {
        size_t key_room = next(model) % 4 == 0 ? next(model) % 60 : LONGEST_KEY, room = next(model) % 4 == 0 ? next(model) % 300 : LONGEST;
        bool marked = next(model) % 32 == 0;
        if (marked) mark(model);
        int32_t status = far_map_next(&model->map, model->told, key_room, &key_len, model->out, room, &len);
        if (status == FAR_END) break;
        CHECK(status == (key_len > key_room || len > room ? FAR_SHORT : FAR_OK));
        if (marked) is_marked(model, key_len > key_room ? 0 : key_len, len > room ? 0 : len);
        if (status == FAR_SHORT) continue;
        struct entry *entry = &model->entries[number_of(model, key_len)];
        CHECK(entry->there && !entry->told && len == entry->len && memcmp(model->out, entry->value, len) == 0);
        entry->told = true;
        told++;
        if (next(model) % 8 == 0) get(model, next(model) % KEYS);
    }
    CHECK(told == model->count);
    for (size_t k = 0; k < KEYS; k++) model->entries[k].told = false;
    key_len = len = 77;
    mark(model);
    CHECK(far_map_next(&model->map, model->told, 9, &key_len, model->out, 9, &len) == FAR_END && key_len == 77 && len == 77);
    is_marked(model, 0, 0);
    CHECK(far_map_begin(&model->map) == FAR_OK);
    if (next(model) % 2) put(model, next(model) % KEYS);
    else take_out(model, next(model) % KEYS);
    CHECK(far_map_next(&model->map, model->told, LONGEST_KEY, &key_len, model->out, LONGEST, &len) == FAR_END);
}

static void count(struct model *model) {
    size_t len = 0;
    struct far_statistics entries, parts;
    CHECK(far_map_length(&model->map, &len) == FAR_OK && len == model->count);
    CHECK(far_map_statistics(&model->map, &entries, &parts) == FAR_OK);
    CHECK(entries.near_objects + entries.far_objects <= len && entries.device_faults + parts.device_faults == 0);
    CHECK(far_map_put(&model->map, model->key, LONGEST_KEY + 1, model->value, 1) == FAR_LENGTH);
    CHECK(far_map_get(&model->map, model->key, LONGEST_KEY + 1, model->out, LONGEST, &len) == FAR_NO_KEY);
}

/* What is answered before a map is opened, and after it is closed. */
static void refuse(struct model *model) {
    size_t len = 77, other_len = 77;
    uint8_t byte = 0;
    struct far_statistics entries, parts;
    CHECK(far_map_put(&model->map, &byte, 1, &byte, 0) == FAR_CLOSED);
    CHECK(far_map_get(&model->map, &byte, 1, model->out, 1, &len) == FAR_CLOSED && len == 77);
    CHECK(far_map_remove(&model->map, &byte, 1) == FAR_CLOSED);
    CHECK(far_map_holds(&model->map, &byte, 1) == FAR_CLOSED);
    CHECK(far_map_length(&model->map, &len) == FAR_CLOSED && len == 77);
    CHECK(far_map_clear(&model->map) == FAR_CLOSED);
    CHECK(far_map_begin(&model->map) == FAR_CLOSED);
    CHECK(far_map_next(&model->map, &byte, 1, &len, model->out, 1, &other_len) == FAR_CLOSED && len == 77 && other_len == 77);
    CHECK(far_map_statistics(&model->map, &entries, &parts) == FAR_CLOSED);
    CHECK(far_map_trim(&model->map) == FAR_CLOSED);
    CHECK(far_map_close(&model->map) == FAR_CLOSED);
}

/* What is answered to plans. */
static void plan(struct model *model, const char *place) {
    struct far_map_plan other = PLAN;
    uint64_t least = 0;
    other.typical = 0;
    CHECK(open_map_in(place, &model->map, &other) == FAR_LENGTH);
    other = PLAN, other.long_parts = (UINT64_C(1) << 32) + 1;
    CHECK(open_map_in(place, &model->map, &other) == FAR_OBJECTS);
    other.typical = 0;
    CHECK(open_map_in(place, &model->map, &other) == FAR_LENGTH);
    other = PLAN;
    CHECK(far_least_near(other.long_parts, 4088, &least) == FAR_OK && least <= other.long_near_bytes);
    other.long_near_bytes = least - 1;
    CHECK(open_map_in(place, &model->map, &other) == FAR_NEAR);
    other.long_near_bytes = least;
    CHECK(open_map_in(place, &model->map, &other) == FAR_OK);
    CHECK(far_map_close(&model->map) == FAR_OK);
}

static void play(struct model *model, uint64_t calls, const char *place) {
    refuse(model);
    plan(model, place);
    CHECK(open_map_in(place, &model->map, &PLAN) == FAR_OK);
    CHECK(open_map_in(place, &model->map, &PLAN) == FAR_OPEN);
    for (; model->calls < calls; model->calls++) {
        size_t number = next(model) % KEYS;
        uint64_t what = next(model) % 16;
        if (what < 5) put(model, number);
        else if (what < 14) get(model, number);
        else take_out(model, number);
        if (model->calls % 16384 == 0) count(model);
        if (model->calls % 1024 == 0) CHECK(far_map_trim(&model->map) == FAR_OK);
        if (model->calls % 16384 == 5000) walk(model);
        if (model->calls % 500000 == 499999) clear(model);
    }
    count(model);
    CHECK(far_map_close(&model->map) == FAR_OK);
    refuse(model);
}

/* In what order the keys are told that a map has with this seed: as their hashes are. */
static void tour(const struct model *model, uint64_t seed, uint64_t more_seed, uint32_t order[100]) {
    struct far_map map = FAR_MAP_NONE;
    struct far_map_plan plan = {1 << 17, 2048, 1 << 17, 2048, seed, more_seed, 64};
    size_t key_len, len;
    uint8_t value[4];
    CHECK(far_map_open_memory(&map, &plan) == FAR_OK);
    for (uint32_t k = 0; k < 100; k++) CHECK(far_map_put(&map, (const uint8_t *)&k, sizeof k, (const uint8_t *)"abc", 3) == FAR_OK);
    CHECK(far_map_begin(&map) == FAR_OK);
    for (uint32_t k = 0; k < 100; k++) CHECK(far_map_next(&map, (uint8_t *)&order[k], sizeof order[k], &key_len, value, sizeof value, &len) == FAR_OK);
    CHECK(far_map_close(&map) == FAR_OK);
}

/* Both words of the seed are used. */
static void seeds(const struct model *model) {
    static uint32_t first[100], again[100], other[100], more[100];
    tour(model, 3, 5, first);
    tour(model, 3, 5, again);
    tour(model, 4, 5, other);
    tour(model, 3, 6, more);
    CHECK(memcmp(first, again, sizeof first) == 0 && memcmp(first, other, sizeof first) != 0 && memcmp(first, more, sizeof first) != 0);
}

int main(int count, char **words) {
    struct model *model = calloc(1, sizeof *model);
    if (model == NULL || far_map_size() != sizeof(struct far_map)) return 1;
    model->seed = count > 3 ? strtoull(words[3], NULL, 10) : 1;
    seeds(model);
    play(model, count > 1 ? strtoull(words[1], NULL, 10) : 100000, count > 2 ? words[2] : "memory");
    for (size_t k = 0; k < KEYS; k++) free(model->entries[k].value);
    free(model);
    return 0;
}
