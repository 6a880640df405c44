/* The system's calls on a cache's file, for cmcache.c. Where one answers false or CMCACHE_DEVICE,
 * errno has the cause. */
#ifndef CMCACHE_FILE_H
#define CMCACHE_FILE_H

#include "cmcache.h"

/* What a file is opened for. */
typedef enum {
    CMFILE_READ,  /* others may read it meanwhile */
    CMFILE_WRITE, /* nobody else has it meanwhile */
    CMFILE_MAKE   /* the same, and it is made if there is none */
} cmfile_use;

/* Opens and locks a regular file. If it is in use, its lock is tried for this many
 * milliseconds. What was opened is in *file, also after an error, or -1. */
int32_t cmfile_open(const char *path, cmfile_use use, uint32_t wait_ms, int *file);

/* Maps all of a file, for reading; NULL if it is empty. */
int32_t cmfile_map(int file, const uint8_t **bytes, size_t *len);
void cmfile_unmap(const uint8_t *bytes, size_t len);

/* Makes an empty cache in a file that is open for writing, if it is empty. */
int32_t cmfile_format_if_empty(int file, const char *path, uint32_t top, uint32_t roots,
                               uint32_t slots);

/* Makes the file's bytes durable, and has the core open the cache that they hold; first brings a
 * file of version 1 up to date. */
int32_t cmfile_open_cache(int file, cmcore_handle *cache, cmcore_damage *damage);

/* Has the core open the cache that the file holds, only to read it. */
int32_t cmfile_read_cache(int file, cmcore_handle *cache, cmcore_damage *damage);

/* The core's next step, and the device call that is to be made after it. */
int32_t cmfile_next(cmcore_handle *from, bool made, uint64_t *stored, cmcore_call *call);

/* Makes a device call. */
bool cmfile_make(int file, const cmcore_call *call);

/* close; errno stays. */
void cmfile_close(int file);

#endif
