/* Foxglovepeg 2.1 for C and C++: objects of 1 to 4,088 bytes behind handles that no stale copy can misuse, and maps from bytes to bytes, in as many bytes near
 * as you say, the rest packed in memory, or in a file.
 *
 * A file, before you take one: all of its bytes are taken from the disk when it is opened, so that a full disk is a status then (FAR_FILE), and no call fails for it
 * later, unless the file system writes elsewhere than it took (btrfs, ZFS). It is memory that a file is mapped to: where its medium fails, somebody cuts it, or such a
 * file system is full, the program gets SIGBUS. What it has may all be resident until far_trim
 * gives that back. Nothing of it outlives the worker or the map. After fork() the child has none of it, and may only close. Where it may pass RLIMIT_FSIZE, ignore
 * SIGXFSZ. At most 1,024 are open.
 *
 * Each function but far_status_text, far_open_file, far_open_folder, far_trim and the same of a map, which are in c_api/support.c, is proved. What C owes: a
 * `struct far_worker` or `struct far_map` is all zero, or as the last call left it; none
 * that is open is copied; one call at a time has it; no two arguments of a call overlap, unless it writes to neither; a pointer leads to as many bytes as the length
 * beside it says, and none is NULL, also where that is 0. Then no call aborts, whatever the numbers are: a handle that has no object, a length that doesn't fit, a second
 * close, a call of a worker or a map that isn't open are answered by a status. A handle of another worker, or one made up, may be one of this worker's too.
 *
 * Threads: a worker and a map stay on the thread that opened them. Several threads have some each. No call waits, takes a lock, or starts a thread. No
 * call may come from a signal handler.
 *
 * Memory: all of it is malloc's, or a file's, and closing gives it back. No call keeps a pointer that it was given. */
#ifndef FOXGLOVEPEG_H
#define FOXGLOVEPEG_H

#include <stdbool.h>
#include <stddef.h>
#include <stdint.h>

#define FOXGLOVEPEG_VERSION_MAJOR 2
#define FOXGLOVEPEG_VERSION_MINOR 1

#ifdef __cplusplus
extern "C" {
#endif

/* A worker: begin with FAR_WORKER_NONE, and look at no field. */
struct far_worker {
    bool live;
    void *at;
};
#define FAR_WORKER_NONE {false, NULL}

/* A map: begin with FAR_MAP_NONE, and look at no field. */
struct far_map {
    bool live;
    void *at;
};
#define FAR_MAP_NONE {false, NULL}

/* What a call answers. After any but FAR_OK the objects of a worker and the entries of a map are as they were, and what the call gives out isn't set, unless it says so. */
enum far_status {
    FAR_OK = 0,
    FAR_MEMORY = 1,        /* malloc refused memory */
    FAR_NO_ROOM = 2,       /* nothing near can leave: malloc refused memory for it, or the far side is full */
    FAR_NO_POINTER = 3,    /* each heap has its 2,048 objects: far_add_heap makes room for more; or there are 2,097,152 heaps */
    FAR_LENGTH = 4,        /* an object has 1 to 4,088 bytes; a key at most 4,086 */
    FAR_NOT_HELD = 7,      /* the worker has no such object: it was dropped, or never was */
    FAR_RANGE = 8,         /* no byte was asked for, or they pass the object's end */
    FAR_DEVICE = 10,       /* a far object is lost: memory loses none */
    FAR_DAMAGED = 11,      /* a far object has another length: in memory none has */
    FAR_EPOCHS_SPENT = 13, /* 2^62 rounds were made */
    FAR_CLOSED = 20,       /* the worker or the map isn't open */
    FAR_OPEN = 21,         /* it is open already */
    FAR_OBJECTS = 22,      /* a worker has at most 2^32 objects */
    FAR_NEAR = 23,         /* too few bytes near for so many objects: far_least_near tells how many would do */
    FAR_NO_KEY = 24,       /* the map has no such key */
    FAR_SHORT = 25,        /* a buffer has too little room: lengths are set */
    FAR_END = 26,          /* no entry is left to be told */
    FAR_FILE = 27,         /* the system refused a file, or room for it: errno tells why */
    FAR_FAR = 28           /* too few bytes far: 32,768 a heap, and far_heaps tells how many heaps there are */
};

/* A status in words, which are there as long as the program; for no status "no status". */
const char *far_status_text(int32_t status);

/* What a worker has, and what it has done since it was opened. */
struct far_statistics {
    uint64_t near_objects;  /* objects in memory */
    uint64_t far_objects;   /* objects that aren't: packed there, or in a file */
    uint64_t live;          /* bytes near that objects take, each with a header of 8, in whole words */
    uint64_t dead;          /* bytes near that nothing needs, until a round gives them back */
    uint64_t unused;        /* bytes near that were not taken yet */
    uint64_t far_bytes;     /* bytes of those that aren't in memory */
    uint64_t accesses;      /* reads and writes, refused ones too */
    uint64_t fetches;       /* objects that were brought near */
    uint64_t looks;         /* reads of far objects where these lie, also those that failed */
    uint64_t evictions;     /* objects that went far */
    uint64_t writes_spared; /* those of them that were there with these bytes already */
    uint64_t moves;         /* objects that went to another place near */
    uint64_t rounds;        /* rounds that were made */
    uint64_t device_faults; /* writes of objects for which there was no room far */
    uint32_t heaps;         /* heaps of 2,048 objects at most */
};

/* Opens a worker without objects.
 *
 * near: bytes for objects that lie near; far_least_near tells the fewest. Some 23 bytes an object come on top.
 * objects: how many objects there will be, near and far, up to 2^32. typical: how many bytes most of them have, 1 to 4,088.
 *
 * FAR_OPEN: it is open already. Then, in this order, FAR_LENGTH, FAR_OBJECTS, FAR_NEAR, exactly as the numbers are; FAR_MEMORY. No other. */
int32_t far_open_memory(struct far_worker *worker, uint64_t near_bytes, uint64_t objects, uint16_t typical);

/* The same, with far objects in `far_heap_bytes` bytes a heap, all of which malloc gives now. Of these 16 KiB stay empty; the others are pieces of 16 KiB for objects
 * of one size each: an object has the smallest of 64, 128, .. 4,096 bytes with room for it. Where a heap has no more of them, nothing leaves it: FAR_NO_ROOM.
 * Those that far_add_heap adds have as many. */
int32_t far_open_reserved(struct far_worker *worker, uint64_t near_bytes, uint64_t objects, uint16_t typical, size_t far_heap_bytes);

/* How many heaps a worker has that is opened so. FAR_LENGTH, FAR_OBJECTS, FAR_NEAR, as there; no other. */
int32_t far_heaps(uint64_t near_bytes, uint64_t objects, uint16_t typical, uint32_t *heaps);

/* The same in a file: `far_bytes` bytes of it, an equal part for each heap, in whole pages. fd is open for reading and writing, of a file that nobody else uses; once the
 * call is back, it may be closed. What the file had is written over; a refused call may leave it longer. Heaps that far_add_heap adds have as much of malloc's instead.
 *
 * In this order: as far_open_memory by the numbers; FAR_FAR; FAR_FILE: the file has no room (ENOSPC, EDQUOT, EFBIG), or can't be mapped, or 1,024 are open (EMFILE);
 * FAR_MEMORY. */
int32_t far_open_file(struct far_worker *worker, uint64_t near_bytes, uint64_t objects, uint16_t typical, int fd, uint64_t far_bytes);

/* The same in a file of a folder, mode 0600, which has no name: it is gone with the worker, also where the program is killed. Where none can be made there, FAR_FILE
 * comes before all but FAR_OPEN. */
int32_t far_open_folder(struct far_worker *worker, uint64_t near_bytes, uint64_t objects, uint16_t typical, const char *folder, uint64_t far_bytes);

/* Gives back memory that has what the file of far_open_file or far_open_folder has, all of which may be resident at last: what is asked for then comes from the system's
 * cache, or the file. Call it now and then. FAR_CLOSED. */
int32_t far_trim(const struct far_worker *worker);

/* Closes a worker: its objects are gone, and all memory is given back. FAR_CLOSED: it wasn't open. */
int32_t far_close(struct far_worker *worker);

/* The fewest bytes near with which far_open_memory opens a worker. FAR_LENGTH, FAR_OBJECTS, as there; no other. */
int32_t far_least_near(uint64_t objects, uint16_t typical, uint64_t *bytes);

/* Makes an object of len bytes, 1 to 4,088; structure is a number of the program's own choice. The handle had no object. A call may make a round, which
 * sends others far.
 *
 * FAR_CLOSED; FAR_LENGTH; FAR_NO_POINTER; FAR_NO_ROOM, FAR_EPOCHS_SPENT: as the heap whose turn it is. The next call is another heap's. */
int32_t far_alloc(struct far_worker *worker, const uint8_t *bytes, size_t len, uint8_t structure, uint64_t *handle);

/* The same of len zeros. */
int32_t far_alloc_zeros(struct far_worker *worker, uint16_t len, uint8_t structure, uint64_t *handle);

/* Reads len bytes of an object, from byte `from` on, as they were written last. A far object is read where it lies, and comes near if it was read
 * lately.
 *
 * FAR_CLOSED; FAR_NOT_HELD, exactly where there is no such object; FAR_RANGE, exactly where len is 0 or from + len is more than its length; FAR_MEMORY,
 * FAR_DEVICE, FAR_DAMAGED: the object is far and can't be read. Then `out` is as it was. */
int32_t far_read(struct far_worker *worker, uint64_t handle, size_t from, uint8_t *out, size_t len);

/* Writes len bytes over those of an object, from byte `from` on. Refused as far_read is, or FAR_NO_ROOM, FAR_EPOCHS_SPENT: the object is far and doesn't come. */
int32_t far_write(struct far_worker *worker, uint64_t handle, size_t from, const uint8_t *bytes, size_t len);

/* Writes len bytes over those of an object, from byte `from` on, and gives back in `bytes` those that were there: a read and a write. Refused as these are, and
 * FAR_MEMORY where there is none for len bytes; then `bytes` is as it was. */
int32_t far_exchange(struct far_worker *worker, uint64_t handle, size_t from, uint8_t *bytes, size_t len);

/* Drops an object: its handle is refused from then on, until its pointer was given 65,536 times more. FAR_CLOSED; FAR_NOT_HELD. */
int32_t far_drop(struct far_worker *worker, uint64_t handle);

/* How many bytes an object has, 1 to 4,088. Nothing is fetched. FAR_CLOSED; FAR_NOT_HELD, exactly where there is no such object. */
int32_t far_length(struct far_worker *worker, uint64_t handle, uint16_t *len);

/* FAR_OK where there is such an object, FAR_NOT_HELD where there is none. Nothing is fetched. FAR_CLOSED. */
int32_t far_holds(struct far_worker *worker, uint64_t handle);

/* Adds a heap, for 2,048 objects more. FAR_CLOSED; FAR_NO_POINTER: there are 2,097,152; FAR_MEMORY. */
int32_t far_add_heap(struct far_worker *worker);

/* What the worker has. It looks at each heap. FAR_CLOSED. */
int32_t far_statistics(struct far_worker *worker, struct far_statistics *statistics);

/* sizeof(struct far_worker) of the library, for other languages to compare. */
size_t far_worker_size(void);

/* What a map is to have. An entry's bytes are its key's, its value's, and two: with at most 4,088 it is one object, and otherwise its value is cut into parts of
 * 4,088 bytes, and its key lies near with some 100 bytes, and 4 for each part. */
struct far_map_plan {
    uint64_t near_bytes;      /* bytes near for entries of at most 4,088 bytes: as far_least_near of the two below, at least; some 40 an entry come on top */
    uint64_t entries;         /* how many of them there will be at a time, up to 2^32, and one more where one is put anew */
    uint64_t long_near_bytes; /* bytes near for parts of longer values: far_least_near of long_parts and 4,088, at least */
    uint64_t long_parts;      /* how many parts there will be, up to 2^32 */
    uint64_t seed;            /* with more_seed 16 bytes for the hash of keys: where others choose keys, at random, and told to nobody */
    uint64_t more_seed;
    uint16_t typical;         /* how many bytes most entries of at most 4,088 bytes have */
};

/* Opens an empty map. FAR_OPEN; then FAR_LENGTH, FAR_OBJECTS, FAR_NEAR as far_open_memory, of the entries, and then of the long parts; FAR_MEMORY. No other. */
int32_t far_map_open_memory(struct far_map *map, const struct far_map_plan *plan);

/* The same, with far entries as far_open_reserved has objects: so many bytes a heap of entries, and so many a heap of long parts. */
int32_t far_map_open_reserved(struct far_map *map, const struct far_map_plan *plan, size_t far_heap_bytes, size_t long_far_heap_bytes);

/* The same in a file, or a folder, as far_open_file and far_open_folder: so many bytes for entries, and behind them for long parts. */
int32_t far_map_open_file(struct far_map *map, const struct far_map_plan *plan, int fd, uint64_t far_bytes, uint64_t long_far_bytes);
int32_t far_map_open_folder(struct far_map *map, const struct far_map_plan *plan, const char *folder, uint64_t far_bytes, uint64_t long_far_bytes);

/* As far_trim. */
int32_t far_map_trim(const struct far_map *map);

/* Closes a map: its entries are gone, and all memory is given back. FAR_CLOSED: it wasn't open. */
int32_t far_map_close(struct far_map *map);

/* Gives a key of at most 4,086 bytes a value of any length, none too, in place of the one that it had. That one goes last, so the new one needs room. No entry is
 * left to be told by far_map_next then, whatever it answers; the same holds of far_map_remove and far_map_clear.
 *
 * FAR_CLOSED; FAR_LENGTH, exactly where the key is longer; FAR_NO_POINTER: there are as many entries, or parts, as the plan says or a few more; FAR_NO_ROOM,
 * FAR_EPOCHS_SPENT, FAR_MEMORY; FAR_DEVICE. No other. */
int32_t far_map_put(struct far_map *map, const uint8_t *key, size_t key_len, const uint8_t *value, size_t value_len);

/* Reads a key's value to out, and how many bytes it has to len. What lies behind it in out stays.
 *
 * FAR_CLOSED; if no other comes FAR_NO_KEY, exactly where there is none, and FAR_SHORT, exactly where out has too little room: nothing is written there, and len
 * says how much would do; FAR_MEMORY: there is none to read a long value to; FAR_NO_ROOM, FAR_EPOCHS_SPENT, FAR_DEVICE. No other. */
int32_t far_map_get(struct far_map *map, const uint8_t *key, size_t key_len, uint8_t *out, size_t room, size_t *len);

/* Takes a key and its value out. FAR_CLOSED; FAR_NO_KEY, exactly where there is none, if no other comes; FAR_NO_ROOM, FAR_EPOCHS_SPENT, FAR_MEMORY, FAR_DEVICE. */
int32_t far_map_remove(struct far_map *map, const uint8_t *key, size_t key_len);

/* FAR_OK where there is such a key, FAR_NO_KEY where there is none, if no other comes. FAR_CLOSED; FAR_NO_ROOM, FAR_EPOCHS_SPENT, FAR_MEMORY, FAR_DEVICE. */
int32_t far_map_holds(struct far_map *map, const uint8_t *key, size_t key_len);

/* How many entries there are. FAR_CLOSED. */
int32_t far_map_length(struct far_map *map, size_t *len);

/* Drops all entries. FAR_CLOSED. */
int32_t far_map_clear(struct far_map *map);

/* From now on far_map_next is to tell all entries. Until the next put, removal or clear the keys of longer values lie near twice. FAR_CLOSED; FAR_MEMORY: as many
 * are left to be told as before. */
int32_t far_map_begin(struct far_map *map);

/* Tells an entry that wasn't told since far_map_begin: its key, its value, and how many bytes each has. Each is told once, in no order that is told; other calls
 * than those that end it may come between. What lies behind them in key and value stays.
 *
 * FAR_CLOSED; FAR_END: each was told, or none was to be; FAR_SHORT: key or value has too little room: the lengths are set, the buffers may be; the next call tells
 * the same entry; FAR_MEMORY, FAR_NO_ROOM, FAR_EPOCHS_SPENT, FAR_DEVICE: the next call tells it. No other. */
int32_t far_map_next(struct far_map *map, uint8_t *key, size_t key_room, size_t *key_len, uint8_t *value, size_t value_room, size_t *value_len);

/* What the map has: of entries of at most 4,088 bytes, and of the parts of longer values. FAR_CLOSED. What it tells isn't proved. */
int32_t far_map_statistics(struct far_map *map, struct far_statistics *entries, struct far_statistics *long_parts);

/* sizeof(struct far_map) of the library. */
size_t far_map_size(void);

#ifdef __cplusplus
}
#endif

#endif
