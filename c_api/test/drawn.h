/* Numbers at random, and the places where the far side of a test may lie. */
#ifndef DRAWN_H
#define DRAWN_H

#include "foxglovepeg.h"

#include <stdio.h>
#include <string.h>

static inline uint64_t drawn(uint64_t *seed) {
    uint64_t word = *seed += UINT64_C(0x9e3779b97f4a7c15);
    word = (word ^ (word >> 30)) * UINT64_C(0xbf58476d1ce4e5b9);
    word = (word ^ (word >> 27)) * UINT64_C(0x94d049bb133111eb);
    return word ^ (word >> 31);
}

/* Far bytes of a heap that is never full: 2,048 objects of each size. */
enum { HEAP_FAR = (64 + 128 + 256 + 512 + 1024 + 2048 + 4096) * 2048 + 16384 };

/* Opens a worker whose far side lies in "memory", is "reserved" there, lies in a "file", or in a folder of that name. */
static inline int32_t open_in(const char *place, struct far_worker *worker, uint64_t near_bytes, uint64_t objects, uint16_t typical) {
    uint32_t heaps = 1;
    far_heaps(near_bytes, objects, typical, &heaps);
    if (strcmp(place, "memory") == 0) return far_open_memory(worker, near_bytes, objects, typical);
    if (strcmp(place, "reserved") == 0) return far_open_reserved(worker, near_bytes, objects, typical, HEAP_FAR);
    if (strcmp(place, "file") != 0) return far_open_folder(worker, near_bytes, objects, typical, place, (uint64_t)heaps * HEAP_FAR);
    FILE *file = tmpfile();
    if (file == NULL) return FAR_FILE;
    int32_t status = far_open_file(worker, near_bytes, objects, typical, fileno(file), (uint64_t)heaps * HEAP_FAR);
    fclose(file);
    return status;
}

/* The same of a map. */
static inline int32_t open_map_in(const char *place, struct far_map *map, const struct far_map_plan *plan) {
    uint32_t heaps = 1, long_heaps = 1;
    far_heaps(plan->near_bytes, plan->entries, plan->typical, &heaps);
    far_heaps(plan->long_near_bytes, plan->long_parts, 4088, &long_heaps);
    uint64_t all = (uint64_t)heaps * HEAP_FAR, long_all = (uint64_t)long_heaps * HEAP_FAR;
    if (strcmp(place, "memory") == 0) return far_map_open_memory(map, plan);
    if (strcmp(place, "reserved") == 0) return far_map_open_reserved(map, plan, HEAP_FAR, HEAP_FAR);
    if (strcmp(place, "file") != 0) return far_map_open_folder(map, plan, place, all, long_all);
    FILE *file = tmpfile();
    if (file == NULL) return FAR_FILE;
    int32_t status = far_map_open_file(map, plan, fileno(file), all, long_all);
    fclose(file);
    return status;
}

#endif
