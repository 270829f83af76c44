/* Planted faults: with -DFAULT=n one call of the library, taken over by the linker's --wrap, does one thing wrong; with 0 none does.
 * tests/faults looks that each of them is caught. */
#include "mosspillow.h"

#include <string.h>

#ifndef FAULT
#define FAULT 0
#endif

/* 1: a wrong examined number. */
moss_answer __real_moss_int_map_get(const uint8_t *marks, size_t marks_count, const uint64_t *keys, size_t keys_count, const uint64_t *values,
    size_t values_count, uint64_t key);
moss_answer __wrap_moss_int_map_get(const uint8_t *marks, size_t marks_count, const uint64_t *keys, size_t keys_count, const uint64_t *values,
    size_t values_count, uint64_t key)
{
    moss_answer a = __real_moss_int_map_get(marks, marks_count, keys, keys_count, values, values_count, key);
    if (FAULT == 1 && a.which == MOSS_ABSENT && a.examined > 1)
        a.examined--;
    return a;
}

moss_answer __real_moss_byte_set_remove(uint8_t *marks, size_t marks_count, uint16_t *offsets, size_t offsets_count, uint8_t *lengths,
    size_t lengths_count, uint8_t *arena, size_t arena_count, const uint8_t *key, size_t key_length);

/* What the live lengths of a byte table add up to. */
static size_t used(const uint8_t *marks, const uint8_t *lengths, size_t slots)
{
    size_t sum = 0;
    for (size_t i = 0; i < slots; i++)
        sum += marks[i] == 1 ? lengths[i] : 0;
    return sum;
}

/* 2: two swapped fields of the answer; 5: an arena byte not zeroed. */
moss_answer __wrap_moss_byte_set_remove(uint8_t *marks, size_t marks_count, uint16_t *offsets, size_t offsets_count, uint8_t *lengths,
    size_t lengths_count, uint8_t *arena, size_t arena_count, const uint8_t *key, size_t key_length)
{
    moss_answer a = __real_moss_byte_set_remove(marks, marks_count, offsets, offsets_count, lengths, lengths_count, arena, arena_count, key, key_length);
    if (FAULT == 2) {
        uint64_t slot = a.slot;
        a.slot = a.examined;
        a.examined = slot;
    }
    if (FAULT == 5 && a.which == MOSS_REMOVED && key_length > 0)
        arena[used(marks, lengths, marks_count)] = key[key_length - 1];
    return a;
}

/* 3: a value not written. */
moss_answer __real_moss_byte_map_occupied_set(uint8_t *marks, size_t marks_count, uint16_t *offsets, size_t offsets_count, uint8_t *lengths,
    size_t lengths_count, uint64_t *values, size_t values_count, uint8_t *arena, size_t arena_count, uint64_t slot, const uint8_t *key,
    size_t key_length, uint64_t value);
moss_answer __wrap_moss_byte_map_occupied_set(uint8_t *marks, size_t marks_count, uint16_t *offsets, size_t offsets_count, uint8_t *lengths,
    size_t lengths_count, uint64_t *values, size_t values_count, uint8_t *arena, size_t arena_count, uint64_t slot, const uint8_t *key,
    size_t key_length, uint64_t value)
{
    moss_answer a = __real_moss_byte_map_occupied_set(marks, marks_count, offsets, offsets_count, lengths, lengths_count, values, values_count, arena,
        arena_count, slot, key, key_length, value);
    if (FAULT == 3 && a.refusal == 0)
        values[slot] = a.value;
    return a;
}

/* 4: a walk moved on a refusal. */
moss_answer __real_moss_int_set_step(const uint8_t *marks, size_t marks_count, const uint64_t *keys, size_t keys_count, uint64_t walk, uint64_t budget);
moss_answer __wrap_moss_int_set_step(const uint8_t *marks, size_t marks_count, const uint64_t *keys, size_t keys_count, uint64_t walk, uint64_t budget)
{
    moss_answer a = __real_moss_int_set_step(marks, marks_count, keys, keys_count, walk, budget);
    if (FAULT == 4 && a.refusal == 5)
        a.walk++;
    return a;
}

/* 6: a store past the end of an array; 7: one before its start. */
moss_answer __real_moss_int_map_clear(uint8_t *marks, size_t marks_count, uint64_t *keys, size_t keys_count, uint64_t *values, size_t values_count);
moss_answer __wrap_moss_int_map_clear(uint8_t *marks, size_t marks_count, uint64_t *keys, size_t keys_count, uint64_t *values, size_t values_count)
{
    moss_answer a = __real_moss_int_map_clear(marks, marks_count, keys, keys_count, values, values_count);
    if (FAULT == 6 && a.refusal == 0)
        memset(marks, 0, marks_count + 1);
    if (FAULT == 7 && a.refusal == 0)
        memset(marks - 1, 0, marks_count + 1);
    return a;
}

/* 8: a lent walk left where it was. */
moss_answer __real_moss_byte_map_walk_on(const uint8_t *marks, size_t marks_count, const uint16_t *offsets, size_t offsets_count,
    const uint8_t *lengths, size_t lengths_count, const uint64_t *values, size_t values_count, const uint8_t *arena, size_t arena_count,
    uint64_t *walk, uint64_t budget);
moss_answer __wrap_moss_byte_map_walk_on(const uint8_t *marks, size_t marks_count, const uint16_t *offsets, size_t offsets_count,
    const uint8_t *lengths, size_t lengths_count, const uint64_t *values, size_t values_count, const uint8_t *arena, size_t arena_count,
    uint64_t *walk, uint64_t budget)
{
    uint64_t copy = *walk;
    return __real_moss_byte_map_walk_on(marks, marks_count, offsets, offsets_count, lengths, lengths_count, values, values_count, arena, arena_count,
        FAULT == 8 ? &copy : walk, budget);
}

/* 9: bytes that are not asked for. */
moss_answer __real_moss_byte_set_reserve(const uint8_t *marks, size_t marks_count, const uint16_t *offsets, size_t offsets_count,
    const uint8_t *lengths, size_t lengths_count, const uint8_t *arena, size_t arena_count, uint64_t keys, uint64_t bytes);
moss_answer __wrap_moss_byte_set_reserve(const uint8_t *marks, size_t marks_count, const uint16_t *offsets, size_t offsets_count,
    const uint8_t *lengths, size_t lengths_count, const uint8_t *arena, size_t arena_count, uint64_t keys, uint64_t bytes)
{
    return __real_moss_byte_set_reserve(marks, marks_count, offsets, offsets_count, lengths, lengths_count, arena, arena_count, keys,
        FAULT == 9 ? 0 : bytes);
}
