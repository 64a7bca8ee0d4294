/* Four threads with a worker and a map each, over memory or files, which each opens, fills, reads and closes a few times.
 *
 *     threads [FOLDER] */
#include "drawn.h"

#include <pthread.h>

enum { THREADS = 4, OBJECTS = 4000, TURNS = 8 };

struct work {
    struct far_worker worker;
    struct far_map map;
    uint64_t handles[OBJECTS];
    int32_t wrong;
};

static const char *folder = "file";
static struct work works[THREADS];
static const struct far_map_plan PLAN = {1 << 18, OBJECTS, 1 << 18, 16, 3, 5, 100};

static void begin(struct work *work, const char *place) {
    work->wrong |= open_in(place, &work->worker, 1 << 18, OBJECTS, 100) | open_map_in(place, &work->map, &PLAN);
}

static void fill(struct work *work) {
    for (uint64_t k = 0; k < OBJECTS; k++) {
        uint8_t bytes[100] = {0};
        memcpy(bytes, &k, sizeof k);
        work->wrong |= far_alloc(&work->worker, bytes, sizeof bytes, 1, &work->handles[k]);
        work->wrong |= far_map_put(&work->map, (uint8_t *)&k, sizeof k, bytes, sizeof bytes);
    }
}

/* Reads what was put there, gives memory back now and then, and closes both. */
static void look(struct work *work) {
    for (uint64_t k = 0; k < OBJECTS; k++) {
        uint64_t told = 0;
        uint8_t bytes[100];
        size_t len = 0;
        work->wrong |= far_read(&work->worker, work->handles[k], 0, (uint8_t *)&told, sizeof told) | (told != k);
        work->wrong |= far_map_get(&work->map, (uint8_t *)&k, sizeof k, bytes, sizeof bytes, &len) | (len != sizeof bytes || memcmp(bytes, &k, sizeof k) != 0);
        if (k % 500 == 0) work->wrong |= far_trim(&work->worker) | far_map_trim(&work->map);
    }
    work->wrong |= far_close(&work->worker) | far_map_close(&work->map);
}

static void *play(void *given) {
    struct work *work = given;
    for (long turn = work - works; turn < TURNS + (work - works); turn++) {
        begin(work, turn % 2 ? folder : "memory");
        fill(work);
        look(work);
    }
    return NULL;
}

int main(int count, char **words) {
    pthread_t threads[THREADS];
    int32_t wrong = 0;
    if (count > 1) folder = words[1];
    for (int k = 0; k < THREADS; k++) if (pthread_create(&threads[k], NULL, play, &works[k]) != 0) return 2;
    for (int k = 0; k < THREADS; k++) {
        pthread_join(threads[k], NULL);
        wrong |= works[k].wrong;
    }
    return wrong != 0;
}
