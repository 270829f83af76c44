/* The rules of the maps in plain C, each call with the arguments and answers of the library's call of that name. */
#ifndef PLAIN_H
#define PLAIN_H

#include "mosspillow.h"

moss_answer plain_int_map_get(const uint8_t *marks, size_t marks_count, const uint64_t *keys, size_t keys_count,
    const uint64_t *values, size_t values_count, uint64_t key);

moss_answer plain_int_map_insert(uint8_t *marks, size_t marks_count, uint64_t *keys, size_t keys_count,
    uint64_t *values, size_t values_count, uint64_t key, uint64_t value);

moss_answer plain_int_map_remove(uint8_t *marks, size_t marks_count, uint64_t *keys, size_t keys_count,
    uint64_t *values, size_t values_count, uint64_t key);

moss_answer plain_int_map_step(const uint8_t *marks, size_t marks_count, const uint64_t *keys, size_t keys_count,
    const uint64_t *values, size_t values_count, uint64_t walk, uint64_t budget);

moss_answer plain_byte_map_get(const uint8_t *marks, size_t marks_count, const uint16_t *offsets, size_t offsets_count,
    const uint8_t *lengths, size_t lengths_count, const uint64_t *values, size_t values_count, const uint8_t *arena, size_t arena_count,
    const uint8_t *key, size_t key_length);

moss_answer plain_byte_map_insert(uint8_t *marks, size_t marks_count, uint16_t *offsets, size_t offsets_count,
    uint8_t *lengths, size_t lengths_count, uint64_t *values, size_t values_count, uint8_t *arena, size_t arena_count,
    const uint8_t *key, size_t key_length, uint64_t value);

moss_answer plain_byte_map_remove(uint8_t *marks, size_t marks_count, uint16_t *offsets, size_t offsets_count,
    uint8_t *lengths, size_t lengths_count, uint64_t *values, size_t values_count, uint8_t *arena, size_t arena_count,
    const uint8_t *key, size_t key_length);

moss_answer plain_byte_map_union_prefer_right(uint8_t *marks, size_t marks_count, uint16_t *offsets, size_t offsets_count,
    uint8_t *lengths, size_t lengths_count, uint64_t *values, size_t values_count, uint8_t *arena, size_t arena_count,
    const uint8_t *right_marks, size_t right_marks_count, const uint16_t *right_offsets, size_t right_offsets_count,
    const uint8_t *right_lengths, size_t right_lengths_count, const uint64_t *right_values, size_t right_values_count,
    const uint8_t *right_arena, size_t right_arena_count);

#endif
