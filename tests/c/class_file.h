/* The name of a class in the bytes of its file, which cmcache_prepare took. */
#ifndef CLASS_FILE_H
#define CLASS_FILE_H

#include <stddef.h>
#include <stdint.h>

static inline size_t two_bytes(const uint8_t *at)
{
    return (size_t)at[0] << 8 | at[1];
}

/* Where the constant at an index of the pool begins. */
static inline const uint8_t *constant_at(const uint8_t *bytes, size_t index)
{
    static const uint8_t sizes[19] = {[3] = 4, 4, 8, 8, 2, 2, 4, 4, 4, 4, [15] = 3, 2, [18] = 4};
    const uint8_t *at = bytes + 10;
    for (size_t each = 1; each < index; each++) {
        size_t size = *at == 1 ? 2 + two_bytes(at + 1) : sizes[*at];
        each += *at == 5 || *at == 6;
        at += 1 + size;
    }
    return at;
}

/* The name, with its length in *len. It lies in the class's bytes. */
static inline const char *class_name(const uint8_t *bytes, size_t *len)
{
    size_t count = two_bytes(bytes + 8);
    const uint8_t *after = constant_at(bytes, count);
    const uint8_t *class = constant_at(bytes, two_bytes(after + 2));
    const uint8_t *text = constant_at(bytes, two_bytes(class + 1));
    *len = two_bytes(text + 1);
    return (const char *)text + 3;
}

#endif
