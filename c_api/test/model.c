/* Calls at random beside a model: each status, and each byte that is read.
 *
 *     model CALLS PLACE SEED     PLACE: memory, reserved, file, or a folder */
#include "drawn.h"

#include <inttypes.h>
#include <stdio.h>
#include <stdlib.h>
#include <string.h>

enum { OBJECTS = 6000, LONGEST = 4088, NEAR = 1 << 19 };

struct object {
    uint64_t handle;
    uint16_t len; /* 0: there is none */
    uint8_t *bytes;
};

struct model {
    struct far_worker worker;
    struct object objects[OBJECTS];
    uint64_t stale[64];
    uint64_t count, calls, seed;
};

#define CHECK(holds)                                                                                     \
    do {                                                                                                 \
        if (!(holds)) {                                                                                  \
            fprintf(stderr, "model.c:%d: %s (call %" PRIu64 ")\n", __LINE__, #holds, model->calls);      \
            exit(1);                                                                                     \
        }                                                                                                \
    } while (0)

static uint64_t next(struct model *model) { return drawn(&model->seed); }

static uint16_t length(struct model *model) {
    uint64_t word = next(model);
    return (uint16_t)(word % 16 == 0 ? 1 + (word >> 8) % LONGEST : 1 + (word >> 8) % 200);
}

/* A new object in place of none. */
static void make(struct model *model, struct object *object) {
    uint8_t bytes[LONGEST];
    uint16_t len = length(model);
    bool zeros = next(model) % 4 == 0;
    for (size_t k = 0; k < len; k++) bytes[k] = zeros ? 0 : (uint8_t)(next(model) >> 9);
    CHECK((zeros ? far_alloc_zeros(&model->worker, len, 3, &object->handle) : far_alloc(&model->worker, bytes, len, 3, &object->handle)) == FAR_OK);
    object->len = len;
    object->bytes = malloc(len);
    CHECK(object->bytes != NULL);
    memcpy(object->bytes, bytes, len);
    model->count++;
}

static void drop(struct model *model, struct object *object) {
    CHECK(far_drop(&model->worker, object->handle) == FAR_OK);
    CHECK(far_drop(&model->worker, object->handle) == FAR_NOT_HELD);
    model->stale[next(model) % 64] = object->handle;
    free(object->bytes);
    object->len = 0;
    model->count--;
}

static void get(struct model *model, struct object *object) {
    uint8_t out[LONGEST + 1];
    size_t from = next(model) % object->len, len = 1 + next(model) % (object->len - from);
    CHECK(far_read(&model->worker, object->handle, from, out, len) == FAR_OK);
    CHECK(memcmp(out, object->bytes + from, len) == 0);
    CHECK(far_read(&model->worker, object->handle, from, out, object->len - from + 1) == FAR_RANGE);
    CHECK(far_read(&model->worker, object->handle, from, out, 0) == FAR_RANGE);
    CHECK(far_read(&model->worker, object->handle, SIZE_MAX, out, 1) == FAR_RANGE);
}

static void put(struct model *model, struct object *object) {
    size_t from = next(model) % object->len, len = 1 + next(model) % (object->len - from);
    for (size_t k = 0; k < len; k++) object->bytes[from + k] = (uint8_t)(next(model) >> 9);
    CHECK(far_write(&model->worker, object->handle, from, object->bytes + from, len) == FAR_OK);
    CHECK(far_write(&model->worker, object->handle, from, object->bytes, object->len - from + 1) == FAR_RANGE);
    uint16_t told = 0;
    CHECK(far_length(&model->worker, object->handle, &told) == FAR_OK && told == object->len);
    CHECK(far_holds(&model->worker, object->handle) == FAR_OK);
}

/* Bytes of an object for others. */
static void exchange(struct model *model, struct object *object) {
    uint8_t bytes[LONGEST + 1], fresh[LONGEST];
    size_t from = next(model) % object->len, len = 1 + next(model) % (object->len - from), past = object->len - from + 1;
    for (size_t k = 0; k < len; k++) fresh[k] = bytes[k] = (uint8_t)(next(model) >> 9);
    CHECK(far_exchange(&model->worker, object->handle, from, bytes, len) == FAR_OK);
    CHECK(memcmp(bytes, object->bytes + from, len) == 0);
    memcpy(object->bytes + from, fresh, len);
    memset(bytes, 7, past);
    CHECK(far_exchange(&model->worker, object->handle, from, bytes, past) == FAR_RANGE && bytes[0] == 7 && bytes[past - 1] == 7);
    CHECK(far_exchange(&model->worker, object->handle, from, bytes, 0) == FAR_RANGE);
    CHECK(far_exchange(&model->worker, object->handle, SIZE_MAX, bytes, 1) == FAR_RANGE);
}

/* A handle that names no object. */
static void miss(struct model *model) {
    uint64_t made_up = next(model) | (UINT64_C(1) << 63), kept = 5;
    uint64_t handle = next(model) % 2 ? model->stale[next(model) % 64] : made_up;
    uint8_t byte = 0;
    uint16_t len = 0;
    CHECK(far_read(&model->worker, handle, 0, &byte, 1) == FAR_NOT_HELD);
    CHECK(far_write(&model->worker, handle, 0, &byte, 1) == FAR_NOT_HELD);
    CHECK(far_exchange(&model->worker, handle, 0, &byte, 1) == FAR_NOT_HELD);
    CHECK(far_length(&model->worker, handle, &len) == FAR_NOT_HELD);
    CHECK(far_holds(&model->worker, handle) == FAR_NOT_HELD);
    CHECK(far_drop(&model->worker, handle) == FAR_NOT_HELD);
    CHECK(far_alloc(&model->worker, &byte, 0, 3, &kept) == FAR_LENGTH && kept == 5);
    CHECK(far_alloc_zeros(&model->worker, LONGEST + 1, 3, &kept) == FAR_LENGTH && kept == 5);
}

static void count(struct model *model) {
    struct far_statistics all;
    CHECK(far_statistics(&model->worker, &all) == FAR_OK);
    CHECK(all.near_objects + all.far_objects == model->count && all.device_faults == 0);
}

/* What is answered before a worker is opened, and after it is closed. */
static void refuse(struct model *model) {
    uint64_t handle = 5;
    uint8_t byte = 0;
    uint16_t len = 0;
    struct far_statistics all;
    CHECK(far_alloc(&model->worker, &byte, 1, 3, &handle) == FAR_CLOSED && handle == 5);
    CHECK(far_alloc_zeros(&model->worker, 1, 3, &handle) == FAR_CLOSED && handle == 5);
    CHECK(far_read(&model->worker, 0, 0, &byte, 1) == FAR_CLOSED);
    CHECK(far_write(&model->worker, 0, 0, &byte, 1) == FAR_CLOSED);
    CHECK(far_exchange(&model->worker, 0, 0, &byte, 1) == FAR_CLOSED);
    CHECK(far_length(&model->worker, 0, &len) == FAR_CLOSED);
    CHECK(far_holds(&model->worker, 0) == FAR_CLOSED);
    CHECK(far_drop(&model->worker, 0) == FAR_CLOSED);
    CHECK(far_add_heap(&model->worker) == FAR_CLOSED);
    CHECK(far_trim(&model->worker) == FAR_CLOSED);
    CHECK(far_statistics(&model->worker, &all) == FAR_CLOSED);
    CHECK(far_close(&model->worker) == FAR_CLOSED);
}

/* What is answered to plans. */
static void plan(struct model *model, const char *place) {
    uint64_t least = 0;
    CHECK(open_in(place, &model->worker, NEAR, OBJECTS, 0) == FAR_LENGTH);
    CHECK(open_in(place, &model->worker, NEAR, OBJECTS, LONGEST + 1) == FAR_LENGTH);
    CHECK(open_in(place, &model->worker, NEAR, (UINT64_C(1) << 32) + 1, 64) == FAR_OBJECTS);
    CHECK(far_least_near(OBJECTS, 64, &least) == FAR_OK && least <= NEAR);
    CHECK(open_in(place, &model->worker, least - 1, OBJECTS, 64) == FAR_NEAR);
    CHECK(open_in(place, &model->worker, least, OBJECTS, 64) == FAR_OK);
    CHECK(far_close(&model->worker) == FAR_OK);
}

static void play(uint64_t calls, const char *place, uint64_t seed) {
    struct model *model = calloc(1, sizeof *model);
    if (model == NULL) exit(1);
    model->seed = seed;
    refuse(model);
    plan(model, place);
    CHECK(open_in(place, &model->worker, NEAR, OBJECTS, 64) == FAR_OK);
    CHECK(open_in(place, &model->worker, NEAR, OBJECTS, 64) == FAR_OPEN);
    for (size_t k = 0; k < 64; k++) model->stale[k] = UINT64_MAX - k;
    for (; model->calls < calls; model->calls++) {
        struct object *object = &model->objects[next(model) % OBJECTS];
        uint64_t what = next(model) % 16;
        if (object->len == 0) make(model, object);
        else if (what == 0) drop(model, object);
        else if (what < 9) get(model, object);
        else if (what < 12) exchange(model, object);
        else put(model, object);
        if (what == 15) miss(model);
        if (model->calls % 65536 == 0) count(model);
        if (model->calls % 1024 == 0) CHECK(far_trim(&model->worker) == FAR_OK);
    }
    count(model);
    CHECK(far_add_heap(&model->worker) == FAR_OK);
    CHECK(far_close(&model->worker) == FAR_OK);
    refuse(model);
    for (size_t k = 0; k < OBJECTS; k++) if (model->objects[k].len != 0) free(model->objects[k].bytes);
    free(model);
}

int main(int count, char **words) {
    uint64_t calls = count > 1 ? strtoull(words[1], NULL, 10) : 100000, seed = count > 3 ? strtoull(words[3], NULL, 10) : 1;
    if (far_worker_size() != sizeof(struct far_worker)) return 1;
    play(calls, count > 2 ? words[2] : "memory", seed);
    return 0;
}
