/* Makes one call of a map over and over, for bench/tables to count its instructions:
 *   tables MAKER CALL SLOTS LOAD TIMES     LOAD in percent; with TIMES 0 it prints the nanoseconds of one call instead
 * MAKER is moss (the library), plain (bench/plain.c), uthash, rust, none (an empty function in the place of the first two) or
 * nothing (one in the place of the others). The status is 3 where a call answers otherwise than it must. */
#define _POSIX_C_SOURCE 199309L
#include "arrays.h"
#include "others.h"
#include "plain.h"

#include <stdbool.h>
#include <stdio.h>
#include <stdlib.h>
#include <string.h>
#include <time.h>

enum { MOST_BYTES = 32000, LONGEST = 32, ASKED = 1024, ABSENT = 1000000, STRIDE = 7919 };

/* The arrays of either kind of map. */
struct table {
    ARRAYS;
    size_t slots;
    size_t arena_size;
    size_t used;
};

/* A key in both forms, and the slot that it has or would get. */
struct key {
    uint64_t word;
    uint8_t bytes[LONGEST];
    size_t slot;
};

/* The calls of the library, or of who takes its place. */
struct maker {
    __typeof__(moss_int_map_get) *int_get;
    __typeof__(moss_int_map_insert) *int_insert;
    __typeof__(moss_int_map_remove) *int_remove;
    __typeof__(moss_int_map_step) *int_step;
    __typeof__(moss_byte_map_get) *byte_get;
    __typeof__(moss_byte_map_insert) *byte_insert;
    __typeof__(moss_byte_map_remove) *byte_remove;
    __typeof__(moss_byte_map_union_prefer_right) *byte_map_union;
};

/* An empty function: as x86-64 calls go, it hands back the place of the answer and leaves that as it was. */
static void *empty(void *answer)
{
    return answer;
}

#define EMPTY(call) (__typeof__(call) *)(void (*)(void))empty

static const struct maker moss = {moss_int_map_get, moss_int_map_insert, moss_int_map_remove, moss_int_map_step, moss_byte_map_get,
    moss_byte_map_insert, moss_byte_map_remove, moss_byte_map_union_prefer_right};
static const struct maker plain = {plain_int_map_get, plain_int_map_insert, plain_int_map_remove, plain_int_map_step, plain_byte_map_get,
    plain_byte_map_insert, plain_byte_map_remove, plain_byte_map_union_prefer_right};
static const struct maker none = {EMPTY(moss_int_map_get), EMPTY(moss_int_map_insert), EMPTY(moss_int_map_remove),
    EMPTY(moss_int_map_step), EMPTY(moss_byte_map_get), EMPTY(moss_byte_map_insert), EMPTY(moss_byte_map_remove),
    EMPTY(moss_byte_map_union_prefer_right)};

static struct table left, right, saved;
static struct key asked[ASKED];
static size_t live, length;
static const struct maker *maker;
static const struct other *other;

#define INTS(t) (t).marks, (t).slots, (t).keys, (t).slots, (t).values, (t).slots
#define SPANS(t) \
    (t).marks, (t).slots, (t).offsets, (t).slots, (t).lengths, (t).slots, (t).values, (t).slots, (t).arena, (t).arena_size
#define KEY(i) asked[(i) % ASKED]

/* A number that looks random, another for each number. */
static uint64_t scrambled(uint64_t number)
{
    number += UINT64_C(0x9e3779b97f4a7c15);
    number = (number ^ (number >> 30)) * UINT64_C(0xbf58476d1ce4e5b9);
    number = (number ^ (number >> 27)) * UINT64_C(0x94d049bb133111eb);
    return number ^ (number >> 31);
}

/* The key of this number: a word, or letters. Its slot is the first never used one from its home on. */
static struct key key_of(uint64_t number, const struct table *t)
{
    struct key key = {scrambled(number), {0}, 0};
    for (size_t i = 0; i < LONGEST; i++)
        key.bytes[i] = (uint8_t)('a' + scrambled(number * LONGEST + i) % 26);
    key.slot = length == 0 ? moss_home((const uint8_t *)&key.word, sizeof key.word, t->slots) : moss_home(key.bytes, length, t->slots);
    while (t->marks[key.slot] != 0)
        key.slot = (key.slot + 1) % t->slots;
    return key;
}

static void add(struct table *t, uint64_t number)
{
    struct key key = key_of(number, t);
    t->marks[key.slot] = 1;
    t->keys[key.slot] = key.word;
    t->offsets[key.slot] = (uint16_t)t->used;
    t->lengths[key.slot] = (uint8_t)length;
    t->values[key.slot] = number;
    memcpy(t->arena + t->used, key.bytes, length);
    t->used += length;
}

/* Gives the left its first slots back as they were before a union. */
static void restore(void)
{
    memcpy(left.marks, saved.marks, left.slots);
    memcpy(left.offsets, saved.offsets, left.slots * sizeof left.offsets[0]);
    memcpy(left.lengths, saved.lengths, left.slots);
    memcpy(left.values, saved.values, left.slots * sizeof left.values[0]);
    memcpy(left.arena, saved.arena, left.arena_size);
}

static uint64_t int_get(size_t i)
{
    return maker->int_get(INTS(left), KEY(i).word).which;
}

/* An absent key goes in and out. Its slot is then marked as never used, so that each pair meets the same table. */
static uint64_t int_pair(size_t i)
{
    uint64_t told = maker->int_insert(INTS(left), KEY(i).word, i).which;
    told += maker->int_remove(INTS(left), KEY(i).word).which;
    left.marks[KEY(i).slot] = 0;
    return told;
}

/* A walk over all: a step for each key. */
static uint64_t int_map_walk(size_t i)
{
    (void)i;
    moss_answer answer = {.walk = 0};
    for (size_t steps = 0; steps < live; steps++)
        answer = maker->int_step(INTS(left), answer.walk, left.slots);
    return answer.which;
}

static uint64_t byte_get(size_t i)
{
    return maker->byte_get(SPANS(left), KEY(i).bytes, length).which;
}

static uint64_t byte_pair(size_t i)
{
    uint64_t told = maker->byte_insert(SPANS(left), KEY(i).bytes, length, i).which;
    told += maker->byte_remove(SPANS(left), KEY(i).bytes, length).which;
    left.marks[KEY(i).slot] = 0;
    return told;
}

/* The oldest key goes out and in again: all bytes of the arena move, and all offsets fall. */
static uint64_t byte_oldest(size_t i)
{
    uint64_t told = maker->byte_remove(SPANS(left), KEY(i).bytes, length).which;
    return told + maker->byte_insert(SPANS(left), KEY(i).bytes, length, i).which;
}

static uint64_t union_present(size_t i)
{
    (void)i;
    return maker->byte_map_union(SPANS(left), SPANS(right)).which;
}

static uint64_t union_absent(size_t i)
{
    (void)i;
    uint64_t told = maker->byte_map_union(SPANS(left), SPANS(right)).which;
    restore();
    return told;
}

static uint64_t other_int_get(size_t i)
{
    return other->int_get(KEY(i).word) != NULL;
}

static uint64_t other_int_pair(size_t i)
{
    int present = other->int_insert(KEY(i).word, i);
    return (uint64_t)(other->int_remove(KEY(i).word) - present);
}

static uint64_t other_byte_get(size_t i)
{
    return other->byte_get(KEY(i).bytes, length) != NULL;
}

static uint64_t other_byte_pair(size_t i)
{
    int present = other->byte_insert(KEY(i).bytes, length, i);
    return (uint64_t)(other->byte_remove(KEY(i).bytes, length) - present);
}

/* Which keys a call asks for: some of the table's, these in their order of age, or absent ones. */
enum asks { PRESENT, OLDEST, ABSENT_KEYS };

/* A call to count: its name, the bytes of its keys (0 for words), the right's part of the left's slots, what it must answer. */
struct call {
    const char *name;
    size_t length;
    enum asks asks;
    size_t part;
    uint64_t (*run)(size_t i);
    uint64_t told;
    uint64_t (*other)(size_t i);
    uint64_t other_told;
};

static const struct call calls[] = {
    {"int-get-hit", 0, PRESENT, 0, int_get, MOSS_FOUND, other_int_get, 1},
    {"int-get-miss", 0, ABSENT_KEYS, 0, int_get, MOSS_ABSENT, other_int_get, 0},
    {"int-insert-remove", 0, ABSENT_KEYS, 0, int_pair, MOSS_FRESH + MOSS_REMOVED, other_int_pair, 1},
    {"int-walk", 0, PRESENT, 0, int_map_walk, MOSS_PAIR, NULL, 0},
    {"byte8-get-hit", 8, PRESENT, 0, byte_get, MOSS_FOUND, other_byte_get, 1},
    {"byte8-get-miss", 8, ABSENT_KEYS, 0, byte_get, MOSS_ABSENT, other_byte_get, 0},
    {"byte32-get-hit", 32, PRESENT, 0, byte_get, MOSS_FOUND, other_byte_get, 1},
    {"byte32-get-miss", 32, ABSENT_KEYS, 0, byte_get, MOSS_ABSENT, other_byte_get, 0},
    {"byte8-insert-remove", 8, ABSENT_KEYS, 0, byte_pair, MOSS_FRESH + MOSS_REMOVED, other_byte_pair, 1},
    {"byte32-insert-remove", 32, ABSENT_KEYS, 0, byte_pair, MOSS_FRESH + MOSS_REMOVED, other_byte_pair, 1},
    {"byte8-oldest", 8, OLDEST, 0, byte_oldest, MOSS_FRESH + MOSS_REMOVED, NULL, 0},
    {"union-present", 8, PRESENT, 4, union_present, MOSS_DONE, NULL, 0},
    {"union-absent", 8, ABSENT_KEYS, 16, union_absent, MOSS_DONE, NULL, 0},
};

/* The number of the key that a call asks for at turn i. */
static uint64_t number_of(enum asks asks, size_t i)
{
    return asks == ABSENT_KEYS ? ABSENT + i : asks == OLDEST ? i % live : i * STRIDE % live;
}

/* Fills the left, the right where there is one, and the keys to ask for. */
static void set_up(const struct call *call, size_t slots, size_t load)
{
    length = call->length;
    live = slots * load / 100;
    if (live * length > MOST_BYTES)
        live = MOST_BYTES / length;
    left.slots = slots;
    left.arena_size = slots * length < ARENA ? slots * length : ARENA;
    for (size_t i = 0; i < live; i++)
        add(&left, i);
    if (call->part != 0) {
        right.slots = slots / call->part;
        right.arena_size = right.slots * length;
        for (size_t i = 0; i < right.slots * load / 100; i++)
            add(&right, number_of(call->asks, i));
    }
    for (size_t i = 0; i < ASKED; i++)
        asked[i] = key_of(number_of(call->asks, i), &left);
    saved = left;
}

/* The same pairs in a table of others. */
static void set_up_other(void)
{
    for (size_t i = 0; i < live; i++) {
        struct key key = key_of(i, &left);
        if (length == 0)
            other->int_insert(key.word, i);
        else
            other->byte_insert(key.bytes, length, i);
    }
}

/* Makes a call so many times. Whether each answered as it must. */
static bool repeat(uint64_t (*run)(size_t), uint64_t told, size_t times)
{
    uint64_t sum = 0;
    for (size_t i = 0; i < times; i++)
        sum += run(i);
    return sum == told * times;
}

static double seconds(void)
{
    struct timespec now;
    clock_gettime(CLOCK_MONOTONIC, &now);
    return (double)now.tv_sec + (double)now.tv_nsec * 1e-9;
}

/* Prints the nanoseconds of one call: the best of five runs of 10 ms or more. */
static void time_call(uint64_t (*run)(size_t))
{
    double best = 0;
    size_t times = 1;
    for (int runs = 0; runs < 5;) {
        double start = seconds();
        repeat(run, 0, times);
        double taken = seconds() - start;
        if (taken < 0.01) {
            times *= 2;
            continue;
        }
        if (runs == 0 || taken / (double)times < best)
            best = taken / (double)times;
        runs++;
    }
    printf("%.3f\n", best * 1e9);
}

/* Chooses who makes the calls. Whether there is one of that name; in the place of others, `nothing` is an empty function. */
static bool choose(const char *name)
{
    static const struct other nothing = {EMPTY(*nothing.int_get), EMPTY(*nothing.int_insert), EMPTY(*nothing.int_remove),
        EMPTY(*nothing.byte_get), EMPTY(*nothing.byte_insert), EMPTY(*nothing.byte_remove)};
    maker = strcmp(name, "moss") == 0 ? &moss : strcmp(name, "plain") == 0 ? &plain : strcmp(name, "none") == 0 ? &none : NULL;
    other = strcmp(name, "uthash") == 0 ? &uthash_table : strcmp(name, "nothing") == 0 ? &nothing : NULL;
#ifdef WITH_RUST
    if (strcmp(name, "rust") == 0)
        other = &rust_table;
#endif
    return maker != NULL || other != NULL;
}

int main(int argc, char **argv)
{
    const struct call *call = NULL;
    if (argc != 6 || !choose(argv[1]))
        return 2;
    for (size_t i = 0; i < sizeof calls / sizeof calls[0]; i++)
        call = strcmp(calls[i].name, argv[2]) == 0 ? &calls[i] : call;
    if (call == NULL || (other != NULL && call->other == NULL))
        return 2;
    set_up(call, strtoul(argv[3], NULL, 10), strtoul(argv[4], NULL, 10));
    if (other != NULL)
        set_up_other();
    size_t times = strtoul(argv[5], NULL, 10);
    uint64_t (*run)(size_t) = other != NULL ? call->other : call->run;
    if (times == 0) {
        time_call(run);
        return 0;
    }
    bool right_answers = repeat(run, other != NULL ? call->other_told : call->told, times);
    return right_answers || argv[1][0] == 'n' ? 0 : 3;
}
