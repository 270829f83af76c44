/* The rules of the maps in plain C: what bench/tables compares the library with. Same answers, same refusals in the same order. */
#include "plain.h"

#include <stdbool.h>
#include <string.h>

enum { SLOT_LIMIT = 4096, KEY_LIMIT = 255, ARENA_LIMIT = 32768 };
enum { NEVER, LIVE, FREED };

/* How a key's path ends: at the key, without it, or at a damaged slot. */
enum end { HIT, MISS, DAMAGED };

/* A path: the key's slot, or the first free one (S where there is none), and how many slots were examined. */
struct path {
    enum end end;
    unsigned slot;
    unsigned examined;
};

/* The arrays of a byte map. */
struct bytes {
    uint8_t *marks;
    uint16_t *offsets;
    uint8_t *lengths;
    uint64_t *values;
    uint8_t *arena;
    size_t slots;
    size_t arena_size;
};

/* What a survey of all slots of a byte map counts. */
struct survey {
    size_t live;
    size_t used;
};

static moss_answer refused(uint64_t why)
{
    return (moss_answer){.refusal = why};
}

static uint64_t mix(uint64_t hash, uint8_t byte)
{
    return (hash ^ byte) * UINT64_C(0x100000001b3);
}

static size_t int_home(uint64_t key, size_t slots)
{
    uint64_t hash = UINT64_C(0xcbf29ce484222325);
    for (int i = 0; i < 8; i++) {
        hash = mix(hash, (uint8_t)key);
        key >>= 8;
    }
    return hash % slots;
}

static size_t byte_home(const uint8_t *key, size_t length, size_t slots)
{
    uint64_t hash = UINT64_C(0xcbf29ce484222325);
    for (size_t i = 0; i < length; i++)
        hash = mix(hash, key[i]);
    return hash % slots;
}

/* The sizes that all the arrays of an integer map must have. */
static bool int_sized(size_t marks, size_t keys, size_t values)
{
    return marks >= 1 && marks <= SLOT_LIMIT && keys == marks && values == marks;
}

static struct path int_path(const uint8_t *marks, const uint64_t *keys, size_t slots, uint64_t key)
{
    size_t slot = int_home(key, slots);
    size_t free = slots;
    for (size_t examined = 1; examined <= slots; examined++) {
        switch (marks[slot]) {
        case LIVE:
            if (keys[slot] == key)
                return (struct path){HIT, slot, examined};
            break;
        case NEVER:
            return (struct path){MISS, free < slots ? free : slot, examined};
        case FREED:
            if (free == slots)
                free = slot;
            break;
        default:
            return (struct path){DAMAGED, 0, 0};
        }
        if (++slot == slots)
            slot = 0;
    }
    return (struct path){MISS, free, slots};
}

moss_answer plain_int_map_get(const uint8_t *marks, size_t marks_count, const uint64_t *keys, size_t keys_count,
    const uint64_t *values, size_t values_count, uint64_t key)
{
    if (!int_sized(marks_count, keys_count, values_count))
        return refused(MOSS_REFUSED_SIZES);
    struct path path = int_path(marks, keys, marks_count, key);
    if (path.end == DAMAGED)
        return refused(MOSS_REFUSED_DAMAGED);
    if (path.end == MISS)
        return (moss_answer){.which = MOSS_ABSENT, .examined = path.examined};
    return (moss_answer){.which = MOSS_FOUND, .value = values[path.slot], .slot = path.slot, .examined = path.examined};
}

moss_answer plain_int_map_insert(uint8_t *marks, size_t marks_count, uint64_t *keys, size_t keys_count,
    uint64_t *values, size_t values_count, uint64_t key, uint64_t value)
{
    if (!int_sized(marks_count, keys_count, values_count))
        return refused(MOSS_REFUSED_SIZES);
    struct path path = int_path(marks, keys, marks_count, key);
    if (path.end == DAMAGED)
        return refused(MOSS_REFUSED_DAMAGED);
    if (path.end == HIT) {
        uint64_t old = values[path.slot];
        values[path.slot] = value;
        return (moss_answer){.which = MOSS_REPLACED, .value = old, .slot = path.slot, .examined = path.examined};
    }
    if (path.slot == marks_count)
        return refused(MOSS_REFUSED_NO_SLOT);
    marks[path.slot] = LIVE;
    keys[path.slot] = key;
    values[path.slot] = value;
    return (moss_answer){.which = MOSS_FRESH, .slot = path.slot, .examined = path.examined};
}

moss_answer plain_int_map_remove(uint8_t *marks, size_t marks_count, uint64_t *keys, size_t keys_count,
    uint64_t *values, size_t values_count, uint64_t key)
{
    if (!int_sized(marks_count, keys_count, values_count))
        return refused(MOSS_REFUSED_SIZES);
    struct path path = int_path(marks, keys, marks_count, key);
    if (path.end == DAMAGED)
        return refused(MOSS_REFUSED_DAMAGED);
    if (path.end == MISS)
        return (moss_answer){.which = MOSS_ABSENT, .examined = path.examined};
    uint64_t old = values[path.slot];
    marks[path.slot] = FREED;
    keys[path.slot] = 0;
    values[path.slot] = 0;
    return (moss_answer){.which = MOSS_REMOVED, .value = old, .slot = path.slot, .examined = path.examined};
}

moss_answer plain_int_map_step(const uint8_t *marks, size_t marks_count, const uint64_t *keys, size_t keys_count,
    const uint64_t *values, size_t values_count, uint64_t walk, uint64_t budget)
{
    if (!int_sized(marks_count, keys_count, values_count))
        return (moss_answer){.refusal = MOSS_REFUSED_SIZES, .walk = walk};
    if (budget == 0)
        return (moss_answer){.refusal = MOSS_REFUSED_NO_BUDGET, .walk = walk};
    if (walk > marks_count)
        return (moss_answer){.refusal = MOSS_REFUSED_WALK_BEYOND, .walk = walk};
    if (walk == marks_count)
        return (moss_answer){.which = MOSS_WALK_DONE, .walk = walk};
    uint64_t end = budget < marks_count - walk ? walk + budget : marks_count;
    for (uint64_t i = walk; i < end; i++) {
        if (marks[i] == LIVE)
            return (moss_answer){.which = MOSS_PAIR, .key = keys[i], .value = values[i], .examined = i + 1 - walk, .walk = i + 1};
        if (marks[i] > FREED)
            return (moss_answer){.refusal = MOSS_REFUSED_DAMAGED, .walk = walk};
    }
    return (moss_answer){.which = MOSS_NOTHING, .examined = end - walk, .walk = end};
}

/* The sizes that all the arrays of a byte map must have. */
static bool byte_sized(size_t marks, size_t offsets, size_t lengths, size_t values, size_t arena)
{
    return marks >= 1 && marks <= SLOT_LIMIT && offsets == marks && lengths == marks && values == marks && arena <= ARENA_LIMIT;
}

static struct path byte_path(const struct bytes *t, const uint8_t *key, size_t length)
{
    size_t slot = byte_home(key, length, t->slots);
    size_t free = t->slots;
    for (size_t examined = 1; examined <= t->slots; examined++) {
        switch (t->marks[slot]) {
        case LIVE:
            if ((size_t)t->offsets[slot] + t->lengths[slot] > t->arena_size)
                return (struct path){DAMAGED, 0, 0};
            if (t->lengths[slot] == length && memcmp(t->arena + t->offsets[slot], key, length) == 0)
                return (struct path){HIT, slot, examined};
            break;
        case NEVER:
            return (struct path){MISS, free < t->slots ? free : slot, examined};
        case FREED:
            if (free == t->slots)
                free = slot;
            break;
        default:
            return (struct path){DAMAGED, 0, 0};
        }
        if (++slot == t->slots)
            slot = 0;
    }
    return (struct path){MISS, free, t->slots};
}

/* Counts live slots and used bytes. False where a mark is above 2, `used` above the arena, or a live span ends beyond `used`. */
static bool surveyed(const struct bytes *t, struct survey *survey)
{
    size_t live = 0, used = 0, top = 0;
    for (size_t i = 0; i < t->slots; i++) {
        if (t->marks[i] > FREED)
            return false;
        if (t->marks[i] != LIVE)
            continue;
        size_t end = (size_t)t->offsets[i] + t->lengths[i];
        live++;
        used += t->lengths[i];
        if (end > top)
            top = end;
    }
    *survey = (struct survey){live, used};
    return used <= t->arena_size && top <= used;
}

/* The tests of a call that puts a key in or takes it out: the first refusal, or 0 with what the survey counts. */
static uint64_t tested(const struct bytes *t, size_t offsets, size_t lengths, size_t values, size_t key_length, struct survey *survey)
{
    if (!byte_sized(t->slots, offsets, lengths, values, t->arena_size))
        return MOSS_REFUSED_SIZES;
    if (key_length > KEY_LIMIT)
        return MOSS_REFUSED_LONG_KEY;
    return surveyed(t, survey) ? 0 : MOSS_REFUSED_DAMAGED;
}

/* A key and its value go into a free slot, the key's bytes behind the used ones. */
static void fill(const struct bytes *t, size_t slot, size_t used, const uint8_t *key, size_t length, uint64_t value)
{
    if (length > 0)
        memcpy(t->arena + used, key, length);
    t->marks[slot] = LIVE;
    t->offsets[slot] = (uint16_t)used;
    t->lengths[slot] = (uint8_t)length;
    t->values[slot] = value;
}

/* A live slot is freed: the bytes behind its span move down, and so do the offsets. */
static void release(const struct bytes *t, size_t slot, size_t used)
{
    size_t start = t->offsets[slot], length = t->lengths[slot], end = start + length;
    memmove(t->arena + start, t->arena + end, used - end);
    memset(t->arena + used - length, 0, length);
    for (size_t i = 0; i < t->slots; i++) {
        if (t->marks[i] == LIVE && t->offsets[i] >= end)
            t->offsets[i] -= length;
    }
    t->marks[slot] = FREED;
    t->offsets[slot] = 0;
    t->lengths[slot] = 0;
    t->values[slot] = 0;
}

moss_answer plain_byte_map_get(const uint8_t *marks, size_t marks_count, const uint16_t *offsets, size_t offsets_count,
    const uint8_t *lengths, size_t lengths_count, const uint64_t *values, size_t values_count, const uint8_t *arena, size_t arena_count,
    const uint8_t *key, size_t key_length)
{
    struct bytes t = {(uint8_t *)marks, (uint16_t *)offsets, (uint8_t *)lengths, (uint64_t *)values, (uint8_t *)arena,
        marks_count, arena_count};
    if (!byte_sized(marks_count, offsets_count, lengths_count, values_count, arena_count))
        return refused(MOSS_REFUSED_SIZES);
    if (key_length > KEY_LIMIT)
        return refused(MOSS_REFUSED_LONG_KEY);
    struct path path = byte_path(&t, key, key_length);
    if (path.end == DAMAGED)
        return refused(MOSS_REFUSED_DAMAGED);
    if (path.end == MISS)
        return (moss_answer){.which = MOSS_ABSENT, .examined = path.examined};
    return (moss_answer){.which = MOSS_FOUND, .value = values[path.slot], .slot = path.slot, .examined = path.examined};
}

moss_answer plain_byte_map_insert(uint8_t *marks, size_t marks_count, uint16_t *offsets, size_t offsets_count,
    uint8_t *lengths, size_t lengths_count, uint64_t *values, size_t values_count, uint8_t *arena, size_t arena_count,
    const uint8_t *key, size_t key_length, uint64_t value)
{
    struct bytes t = {marks, offsets, lengths, values, arena, marks_count, arena_count};
    struct survey survey;
    uint64_t refusal = tested(&t, offsets_count, lengths_count, values_count, key_length, &survey);
    if (refusal != 0)
        return refused(refusal);
    struct path path = byte_path(&t, key, key_length);
    if (path.end == HIT) {
        uint64_t old = values[path.slot];
        values[path.slot] = value;
        return (moss_answer){.which = MOSS_REPLACED, .value = old, .slot = path.slot, .examined = path.examined};
    }
    if (path.slot == marks_count)
        return refused(MOSS_REFUSED_NO_SLOT);
    if (key_length > arena_count - survey.used)
        return refused(MOSS_REFUSED_NO_BYTES);
    fill(&t, path.slot, survey.used, key, key_length, value);
    return (moss_answer){.which = MOSS_FRESH, .slot = path.slot, .examined = path.examined, .offset = survey.used};
}

moss_answer plain_byte_map_remove(uint8_t *marks, size_t marks_count, uint16_t *offsets, size_t offsets_count,
    uint8_t *lengths, size_t lengths_count, uint64_t *values, size_t values_count, uint8_t *arena, size_t arena_count,
    const uint8_t *key, size_t key_length)
{
    struct bytes t = {marks, offsets, lengths, values, arena, marks_count, arena_count};
    struct survey survey;
    uint64_t refusal = tested(&t, offsets_count, lengths_count, values_count, key_length, &survey);
    if (refusal != 0)
        return refused(refusal);
    struct path path = byte_path(&t, key, key_length);
    if (path.end == MISS)
        return (moss_answer){.which = MOSS_ABSENT, .examined = path.examined};
    uint64_t old = values[path.slot];
    release(&t, path.slot, survey.used);
    return (moss_answer){.which = MOSS_REMOVED, .value = old, .slot = path.slot, .examined = path.examined};
}

/* Counts the right's keys that are absent in the left, and their bytes. */
static struct survey lacking(const struct bytes *left, const struct bytes *right)
{
    struct survey needed = {0, 0};
    for (size_t i = 0; i < right->slots; i++) {
        if (right->marks[i] != LIVE)
            continue;
        if (byte_path(left, right->arena + right->offsets[i], right->lengths[i]).end == HIT)
            continue;
        needed.live++;
        needed.used += right->lengths[i];
    }
    return needed;
}

/* Puts the right's pairs into the left, which has room for them. */
static void store_all(const struct bytes *left, const struct bytes *right, size_t used)
{
    for (size_t i = 0; i < right->slots; i++) {
        if (right->marks[i] != LIVE)
            continue;
        const uint8_t *key = right->arena + right->offsets[i];
        struct path path = byte_path(left, key, right->lengths[i]);
        if (path.end == HIT) {
            left->values[path.slot] = right->values[i];
            continue;
        }
        fill(left, path.slot, used, key, right->lengths[i], right->values[i]);
        used += right->lengths[i];
    }
}

moss_answer plain_byte_map_union_prefer_right(uint8_t *marks, size_t marks_count, uint16_t *offsets, size_t offsets_count,
    uint8_t *lengths, size_t lengths_count, uint64_t *values, size_t values_count, uint8_t *arena, size_t arena_count,
    const uint8_t *right_marks, size_t right_marks_count, const uint16_t *right_offsets, size_t right_offsets_count,
    const uint8_t *right_lengths, size_t right_lengths_count, const uint64_t *right_values, size_t right_values_count,
    const uint8_t *right_arena, size_t right_arena_count)
{
    struct bytes left = {marks, offsets, lengths, values, arena, marks_count, arena_count};
    struct bytes right = {(uint8_t *)right_marks, (uint16_t *)right_offsets, (uint8_t *)right_lengths, (uint64_t *)right_values,
        (uint8_t *)right_arena, right_marks_count, right_arena_count};
    struct survey ours, theirs;
    if (!byte_sized(marks_count, offsets_count, lengths_count, values_count, arena_count))
        return refused(MOSS_REFUSED_SIZES);
    if (!byte_sized(right_marks_count, right_offsets_count, right_lengths_count, right_values_count, right_arena_count))
        return refused(MOSS_REFUSED_SIZES);
    if (!surveyed(&left, &ours) || !surveyed(&right, &theirs))
        return refused(MOSS_REFUSED_DAMAGED);
    struct survey needed = lacking(&left, &right);
    if (needed.live > marks_count - ours.live)
        return refused(MOSS_REFUSED_NO_SLOT);
    if (needed.used > arena_count - ours.used)
        return refused(MOSS_REFUSED_NO_BYTES);
    store_all(&left, &right, ours.used);
    return (moss_answer){.which = MOSS_DONE};
}
