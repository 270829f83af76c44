/* The arrays of the largest map of either kind, as members of a struct. */
#ifndef ARRAYS_H
#define ARRAYS_H

#include <stdint.h>

enum { SLOTS = 4096, ARENA = 32768 };

#define ARRAYS \
    uint8_t marks[SLOTS]; \
    uint64_t keys[SLOTS]; \
    uint16_t offsets[SLOTS]; \
    uint8_t lengths[SLOTS]; \
    uint64_t values[SLOTS]; \
    uint8_t arena[ARENA]

#endif
