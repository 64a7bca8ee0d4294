/* A cache of records by number: a table of handles, and the records behind them, some near, the others packed, or in a file of a folder.
 *
 *     cache [RECORDS [NEAR [FOLDER]]]     asks for records at random, and tells how many had to be made, and how many came from the far side */
#include "foxglovepeg.h"

#include <inttypes.h>
#include <stdio.h>
#include <stdlib.h>
#include <string.h>

enum { RECORD = 200 };

struct cache {
    struct far_worker worker;
    uint64_t *handles; /* 0: not there yet; else one more than the handle */
    uint64_t made;
};

/* What the cache saves: a record that is dear to make. */
static void make(uint64_t number, uint8_t record[RECORD]) {
    memset(record, (int)(number % 251), RECORD);
    memcpy(record, &number, sizeof number);
}

/* The record of a number. */
static int32_t get(struct cache *cache, uint64_t number, uint8_t record[RECORD]) {
    uint64_t *kept = &cache->handles[number], handle = 0;
    if (*kept != 0) return far_read(&cache->worker, *kept - 1, 0, record, RECORD);
    make(number, record);
    cache->made++;
    int32_t status = far_alloc(&cache->worker, record, RECORD, 1, &handle);
    if (status == FAR_OK) *kept = handle + 1;
    return status;
}

int main(int count, char **words) {
    uint64_t records = count > 1 ? strtoull(words[1], NULL, 10) : 100000, near_bytes = count > 2 ? strtoull(words[2], NULL, 10) : 4194304;
    struct cache cache = {FAR_WORKER_NONE, calloc(records, sizeof(uint64_t)), 0};
    if (cache.handles == NULL || records == 0) return 1;
    /* a record takes 256 bytes in a file, and a heap of 2,048 of them 16 KiB besides; some room more, since heaps fill unevenly */
    uint32_t heaps = 0;
    int32_t status = far_heaps(near_bytes, records, RECORD, &heaps);
    if (status == FAR_OK && count > 3) status = far_open_folder(&cache.worker, near_bytes, records, RECORD, words[3], records * 256 + heaps * UINT64_C(65536));
    else if (status == FAR_OK) status = far_open_memory(&cache.worker, near_bytes, records, RECORD);
    for (uint64_t k = 0, word = 1; status == FAR_OK && k < 3 * records; k++) {
        uint8_t record[RECORD], wanted[RECORD];
        word = word * UINT64_C(6364136223846793005) + 1442695040888963407;
        uint64_t number = (word >> 33) % records;
        status = get(&cache, number, record);
        make(number, wanted);
        if (status == FAR_OK && memcmp(record, wanted, RECORD) != 0) return 1;
    }
    struct far_statistics all = {0};
    if (status == FAR_OK) status = far_statistics(&cache.worker, &all);
    if (status != FAR_OK) fprintf(stderr, "cache: %s\n", far_status_text(status));
    else printf("%" PRIu64 " records asked for, %" PRIu64 " made, %" PRIu64 " came from the far side\n", 3 * records, cache.made, all.fetches + all.looks);
    far_close(&cache.worker);
    free(cache.handles);
    return status;
}
