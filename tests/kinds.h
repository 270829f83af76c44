/* What there is to play: the kinds of tables, their columns and calls, and the library's function for each call of a kind. */
#ifndef KINDS_H
#define KINDS_H

#include "mosspillow.h"

#include <stdbool.h>
#include <stddef.h>
#include <stdint.h>

enum { MOST_COLUMNS = 5 };

/* A column of a table: its name, the bytes of an element in memory and in the digest. */
struct column {
    const char *name;
    size_t width;
    size_t told;
};

/* A lent array: `count` elements that end where a guard page starts, the filled bytes before them, and behind where there is no such page,
 * and what it held before the call. */
struct array {
    size_t count;
    uint8_t *pages;
    size_t mapped;
    size_t margin;
    size_t behind;
    uint8_t *data;
    uint8_t *before;
};

/* from the list: table */
struct table {
    struct array columns[MOST_COLUMNS];
};
/* end of table */

/* The arguments of a call; a key is a word or lent bytes, a walk a number or a lent one. */
struct order {
    struct table *table;
    struct table *other;
    uint64_t key;
    struct array bytes;
    uint64_t value;
    uint64_t which;
    uint64_t slot;
    uint64_t asked;
    uint64_t asked_bytes;
    uint64_t walk;
    uint64_t *lent;
    uint64_t budget;
};

typedef moss_answer function(const struct order *order);

/* The calls that a scenario file names, and after CALLS those that are made beside one of them. */
enum call {
    MAKE, CLEAR, LEN, IS_EMPTY, CAPACITY, RESERVE, GET, CONTAINS, REMOVE, INSERT, ENTRY, OCCUPIED_GET, OCCUPIED_REMOVE, OCCUPIED_SET,
    VACANT_INSERT, OR_INSERT, INSERT_ENTRY, STEP, UNION, COPY, CALLS,
    WALK_ON = CALLS, REMOVE_ENTRY, FUNCTIONS
};

/* A kind of table: its columns, whether it has values, whether its keys are bytes, and its functions by call. */
struct kind {
    const char *name;
    size_t columns;
    struct column column[MOST_COLUMNS];
    bool values;
    bool bytes;
    function *functions[FUNCTIONS];
};

#define SMALL(t, c) (t)->columns[c].data, (t)->columns[c].count
#define SHORTS(t, c) (uint16_t *)(void *)(t)->columns[c].data, (t)->columns[c].count
#define WORDS(t, c) (uint64_t *)(void *)(t)->columns[c].data, (t)->columns[c].count
/* from the list: lending */
#define INT_MAP(t) SMALL(t, 0), WORDS(t, 1), WORDS(t, 2)
#define INT_MAP_STRUCT(type, t) &(type){(t)->columns[0].data, (void *)(t)->columns[1].data, (void *)(t)->columns[2].data, \
    (t)->columns[0].count}
#define INT_SET(t) SMALL(t, 0), WORDS(t, 1)
#define INT_SET_STRUCT(type, t) &(type){(t)->columns[0].data, (void *)(t)->columns[1].data, (t)->columns[0].count}
#define BYTE_MAP(t) SMALL(t, 0), SHORTS(t, 1), SMALL(t, 2), WORDS(t, 3), SMALL(t, 4)
#define BYTE_MAP_STRUCT(type, t) &(type){(t)->columns[0].data, (void *)(t)->columns[1].data, (t)->columns[2].data, \
    (void *)(t)->columns[3].data, (t)->columns[4].data, (t)->columns[0].count, (t)->columns[4].count}
#define BYTE_SET(t) SMALL(t, 0), SHORTS(t, 1), SMALL(t, 2), SMALL(t, 3)
#define BYTE_SET_STRUCT(type, t) &(type){(t)->columns[0].data, (void *)(t)->columns[1].data, (t)->columns[2].data, \
    (t)->columns[3].data, (t)->columns[0].count, (t)->columns[3].count}
/* end of lending */
#define INT_KEY(o) (o)->key
#define BYTE_KEY(o) (o)->bytes.data, (o)->bytes.count

/* The player's function of one call: further words are the arguments of the library's. */
#define CALL(kind, name, ...) \
    static moss_answer kind##_##name(const struct order *o) { return moss_##kind##_##name(__VA_ARGS__); }

/* The calls of each kind, and those that only read; T lends a table. */

/* from the list: functions */
#define INT_MAP_CALLS(kind, T) \
    CALL(kind, make, T(o->table)) \
    CALL(kind, clear, T(o->table)) \
    CALL(kind, capacity, T(o->table)) \
    CALL(kind, len, T(o->table)) \
    CALL(kind, is_empty, T(o->table)) \
    CALL(kind, reserve, T(o->table), o->asked) \
    CALL(kind, get, T(o->table), INT_KEY(o)) \
    CALL(kind, contains_key, T(o->table), INT_KEY(o)) \
    CALL(kind, insert, T(o->table), INT_KEY(o), o->value) \
    CALL(kind, remove, T(o->table), INT_KEY(o)) \
    CALL(kind, copy, T(o->table), T(o->other)) \
    CALL(kind, union_prefer_right, T(o->table), T(o->other)) \
    CALL(kind, entry, T(o->table), INT_KEY(o)) \
    CALL(kind, occupied_get, T(o->table), o->slot, INT_KEY(o)) \
    CALL(kind, occupied_set, T(o->table), o->slot, INT_KEY(o), o->value) \
    CALL(kind, occupied_remove, T(o->table), o->slot, INT_KEY(o)) \
    CALL(kind, occupied_remove_entry, T(o->table), o->slot, INT_KEY(o)) \
    CALL(kind, vacant_insert, T(o->table), o->slot, INT_KEY(o), o->value) \
    CALL(kind, or_insert, T(o->table), o->which, o->slot, INT_KEY(o), o->value) \
    CALL(kind, insert_entry, T(o->table), o->which, o->slot, INT_KEY(o), o->value) \
    CALL(kind, step, T(o->table), o->walk, o->budget) \
    CALL(kind, walk_on, T(o->table), o->lent, o->budget)
#define INT_MAP_CALLS_TABLE(kind) {[MAKE] = kind##_make, [CLEAR] = kind##_clear, [CAPACITY] = kind##_capacity, [LEN] = kind##_len, \
    [IS_EMPTY] = kind##_is_empty, [RESERVE] = kind##_reserve, [GET] = kind##_get, [CONTAINS] = kind##_contains_key, \
    [INSERT] = kind##_insert, [REMOVE] = kind##_remove, [COPY] = kind##_copy, [UNION] = kind##_union_prefer_right, \
    [ENTRY] = kind##_entry, [OCCUPIED_GET] = kind##_occupied_get, [OCCUPIED_SET] = kind##_occupied_set, \
    [OCCUPIED_REMOVE] = kind##_occupied_remove, [REMOVE_ENTRY] = kind##_occupied_remove_entry, \
    [VACANT_INSERT] = kind##_vacant_insert, [OR_INSERT] = kind##_or_insert, [INSERT_ENTRY] = kind##_insert_entry, \
    [STEP] = kind##_step, [WALK_ON] = kind##_walk_on}

#define INT_MAP_READS(kind, T) \
    CALL(kind, capacity, T(o->table)) \
    CALL(kind, len, T(o->table)) \
    CALL(kind, is_empty, T(o->table)) \
    CALL(kind, reserve, T(o->table), o->asked) \
    CALL(kind, get, T(o->table), INT_KEY(o)) \
    CALL(kind, contains_key, T(o->table), INT_KEY(o)) \
    CALL(kind, entry, T(o->table), INT_KEY(o)) \
    CALL(kind, occupied_get, T(o->table), o->slot, INT_KEY(o)) \
    CALL(kind, step, T(o->table), o->walk, o->budget) \
    CALL(kind, walk_on, T(o->table), o->lent, o->budget)
#define INT_MAP_READS_TABLE(kind) {[CAPACITY] = kind##_capacity, [LEN] = kind##_len, [IS_EMPTY] = kind##_is_empty, \
    [RESERVE] = kind##_reserve, [GET] = kind##_get, [CONTAINS] = kind##_contains_key, [ENTRY] = kind##_entry, \
    [OCCUPIED_GET] = kind##_occupied_get, [STEP] = kind##_step, [WALK_ON] = kind##_walk_on}

#define INT_SET_CALLS(kind, T) \
    CALL(kind, make, T(o->table)) \
    CALL(kind, clear, T(o->table)) \
    CALL(kind, capacity, T(o->table)) \
    CALL(kind, len, T(o->table)) \
    CALL(kind, is_empty, T(o->table)) \
    CALL(kind, reserve, T(o->table), o->asked) \
    CALL(kind, get, T(o->table), INT_KEY(o)) \
    CALL(kind, contains, T(o->table), INT_KEY(o)) \
    CALL(kind, insert, T(o->table), INT_KEY(o)) \
    CALL(kind, remove, T(o->table), INT_KEY(o)) \
    CALL(kind, copy, T(o->table), T(o->other)) \
    CALL(kind, step, T(o->table), o->walk, o->budget) \
    CALL(kind, walk_on, T(o->table), o->lent, o->budget)
#define INT_SET_CALLS_TABLE(kind) {[MAKE] = kind##_make, [CLEAR] = kind##_clear, [CAPACITY] = kind##_capacity, [LEN] = kind##_len, \
    [IS_EMPTY] = kind##_is_empty, [RESERVE] = kind##_reserve, [GET] = kind##_get, [CONTAINS] = kind##_contains, \
    [INSERT] = kind##_insert, [REMOVE] = kind##_remove, [COPY] = kind##_copy, [STEP] = kind##_step, [WALK_ON] = kind##_walk_on}

#define INT_SET_READS(kind, T) \
    CALL(kind, capacity, T(o->table)) \
    CALL(kind, len, T(o->table)) \
    CALL(kind, is_empty, T(o->table)) \
    CALL(kind, reserve, T(o->table), o->asked) \
    CALL(kind, get, T(o->table), INT_KEY(o)) \
    CALL(kind, contains, T(o->table), INT_KEY(o)) \
    CALL(kind, step, T(o->table), o->walk, o->budget) \
    CALL(kind, walk_on, T(o->table), o->lent, o->budget)
#define INT_SET_READS_TABLE(kind) {[CAPACITY] = kind##_capacity, [LEN] = kind##_len, [IS_EMPTY] = kind##_is_empty, \
    [RESERVE] = kind##_reserve, [GET] = kind##_get, [CONTAINS] = kind##_contains, [STEP] = kind##_step, [WALK_ON] = kind##_walk_on}

#define BYTE_MAP_CALLS(kind, T) \
    CALL(kind, make, T(o->table)) \
    CALL(kind, clear, T(o->table)) \
    CALL(kind, capacity, T(o->table)) \
    CALL(kind, len, T(o->table)) \
    CALL(kind, is_empty, T(o->table)) \
    CALL(kind, reserve, T(o->table), o->asked, o->asked_bytes) \
    CALL(kind, get, T(o->table), BYTE_KEY(o)) \
    CALL(kind, contains_key, T(o->table), BYTE_KEY(o)) \
    CALL(kind, insert, T(o->table), BYTE_KEY(o), o->value) \
    CALL(kind, remove, T(o->table), BYTE_KEY(o)) \
    CALL(kind, copy, T(o->table), T(o->other)) \
    CALL(kind, union_prefer_right, T(o->table), T(o->other)) \
    CALL(kind, entry, T(o->table), BYTE_KEY(o)) \
    CALL(kind, occupied_get, T(o->table), o->slot, BYTE_KEY(o)) \
    CALL(kind, occupied_set, T(o->table), o->slot, BYTE_KEY(o), o->value) \
    CALL(kind, occupied_remove, T(o->table), o->slot, BYTE_KEY(o)) \
    CALL(kind, occupied_remove_entry, T(o->table), o->slot, BYTE_KEY(o)) \
    CALL(kind, vacant_insert, T(o->table), o->slot, BYTE_KEY(o), o->value) \
    CALL(kind, or_insert, T(o->table), o->which, o->slot, BYTE_KEY(o), o->value) \
    CALL(kind, insert_entry, T(o->table), o->which, o->slot, BYTE_KEY(o), o->value) \
    CALL(kind, step, T(o->table), o->walk, o->budget) \
    CALL(kind, walk_on, T(o->table), o->lent, o->budget)
#define BYTE_MAP_CALLS_TABLE(kind) {[MAKE] = kind##_make, [CLEAR] = kind##_clear, [CAPACITY] = kind##_capacity, [LEN] = kind##_len, \
    [IS_EMPTY] = kind##_is_empty, [RESERVE] = kind##_reserve, [GET] = kind##_get, [CONTAINS] = kind##_contains_key, \
    [INSERT] = kind##_insert, [REMOVE] = kind##_remove, [COPY] = kind##_copy, [UNION] = kind##_union_prefer_right, \
    [ENTRY] = kind##_entry, [OCCUPIED_GET] = kind##_occupied_get, [OCCUPIED_SET] = kind##_occupied_set, \
    [OCCUPIED_REMOVE] = kind##_occupied_remove, [REMOVE_ENTRY] = kind##_occupied_remove_entry, \
    [VACANT_INSERT] = kind##_vacant_insert, [OR_INSERT] = kind##_or_insert, [INSERT_ENTRY] = kind##_insert_entry, \
    [STEP] = kind##_step, [WALK_ON] = kind##_walk_on}

#define BYTE_MAP_READS(kind, T) \
    CALL(kind, capacity, T(o->table)) \
    CALL(kind, len, T(o->table)) \
    CALL(kind, is_empty, T(o->table)) \
    CALL(kind, reserve, T(o->table), o->asked, o->asked_bytes) \
    CALL(kind, get, T(o->table), BYTE_KEY(o)) \
    CALL(kind, contains_key, T(o->table), BYTE_KEY(o)) \
    CALL(kind, entry, T(o->table), BYTE_KEY(o)) \
    CALL(kind, occupied_get, T(o->table), o->slot, BYTE_KEY(o)) \
    CALL(kind, step, T(o->table), o->walk, o->budget) \
    CALL(kind, walk_on, T(o->table), o->lent, o->budget)
#define BYTE_MAP_READS_TABLE(kind) {[CAPACITY] = kind##_capacity, [LEN] = kind##_len, [IS_EMPTY] = kind##_is_empty, \
    [RESERVE] = kind##_reserve, [GET] = kind##_get, [CONTAINS] = kind##_contains_key, [ENTRY] = kind##_entry, \
    [OCCUPIED_GET] = kind##_occupied_get, [STEP] = kind##_step, [WALK_ON] = kind##_walk_on}

#define BYTE_SET_CALLS(kind, T) \
    CALL(kind, make, T(o->table)) \
    CALL(kind, clear, T(o->table)) \
    CALL(kind, capacity, T(o->table)) \
    CALL(kind, len, T(o->table)) \
    CALL(kind, is_empty, T(o->table)) \
    CALL(kind, reserve, T(o->table), o->asked, o->asked_bytes) \
    CALL(kind, get, T(o->table), BYTE_KEY(o)) \
    CALL(kind, contains, T(o->table), BYTE_KEY(o)) \
    CALL(kind, insert, T(o->table), BYTE_KEY(o)) \
    CALL(kind, remove, T(o->table), BYTE_KEY(o)) \
    CALL(kind, copy, T(o->table), T(o->other)) \
    CALL(kind, step, T(o->table), o->walk, o->budget) \
    CALL(kind, walk_on, T(o->table), o->lent, o->budget)
#define BYTE_SET_CALLS_TABLE(kind) {[MAKE] = kind##_make, [CLEAR] = kind##_clear, [CAPACITY] = kind##_capacity, [LEN] = kind##_len, \
    [IS_EMPTY] = kind##_is_empty, [RESERVE] = kind##_reserve, [GET] = kind##_get, [CONTAINS] = kind##_contains, \
    [INSERT] = kind##_insert, [REMOVE] = kind##_remove, [COPY] = kind##_copy, [STEP] = kind##_step, [WALK_ON] = kind##_walk_on}

#define BYTE_SET_READS(kind, T) \
    CALL(kind, capacity, T(o->table)) \
    CALL(kind, len, T(o->table)) \
    CALL(kind, is_empty, T(o->table)) \
    CALL(kind, reserve, T(o->table), o->asked, o->asked_bytes) \
    CALL(kind, get, T(o->table), BYTE_KEY(o)) \
    CALL(kind, contains, T(o->table), BYTE_KEY(o)) \
    CALL(kind, step, T(o->table), o->walk, o->budget) \
    CALL(kind, walk_on, T(o->table), o->lent, o->budget)
#define BYTE_SET_READS_TABLE(kind) {[CAPACITY] = kind##_capacity, [LEN] = kind##_len, [IS_EMPTY] = kind##_is_empty, \
    [RESERVE] = kind##_reserve, [GET] = kind##_get, [CONTAINS] = kind##_contains, [STEP] = kind##_step, [WALK_ON] = kind##_walk_on}
/* end of functions */

/* from the list: kinds */
INT_MAP_CALLS(int_map, INT_MAP)
INT_SET_CALLS(int_set, INT_SET)
BYTE_MAP_CALLS(byte_map, BYTE_MAP)
BYTE_SET_CALLS(byte_set, BYTE_SET)

static const struct kind kinds[] = {
    {"intmap", 3, {{"marks", 1, 1}, {"keys", 8, 8}, {"values", 8, 8}}, true, false, INT_MAP_CALLS_TABLE(int_map)},
    {"intset", 2, {{"marks", 1, 1}, {"keys", 8, 8}}, false, false, INT_SET_CALLS_TABLE(int_set)},
    {"bytemap", 5, {{"marks", 1, 1}, {"offsets", 2, 2}, {"lengths", 1, 2}, {"values", 8, 8}, {"arena", 1, 1}}, true, true, BYTE_MAP_CALLS_TABLE(byte_map)},
    {"byteset", 4, {{"marks", 1, 1}, {"offsets", 2, 2}, {"lengths", 1, 2}, {"arena", 1, 1}}, false, true, BYTE_SET_CALLS_TABLE(byte_set)},
};
/* end of kinds */

#endif
