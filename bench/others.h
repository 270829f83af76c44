/* Tables of others, for orientation: they keep their pairs themselves, and their rules are others. */
#ifndef OTHERS_H
#define OTHERS_H

#include <stddef.h>
#include <stdint.h>

/* The calls of such a table: get hands out the value's place or null; insert and remove hand out whether the key was there. */
struct other {
    const uint64_t *(*int_get)(uint64_t key);
    int (*int_insert)(uint64_t key, uint64_t value);
    int (*int_remove)(uint64_t key);
    const uint64_t *(*byte_get)(const uint8_t *key, size_t length);
    int (*byte_insert)(const uint8_t *key, size_t length, uint64_t value);
    int (*byte_remove)(const uint8_t *key, size_t length);
};

extern const struct other uthash_table;
extern const struct other rust_table;

#endif
