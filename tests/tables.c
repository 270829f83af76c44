/* The calls that take a table's struct, or a view of it, do what those that take its arrays do: the same orders are given to both, on
 * tables that start equal, and answers and memory are compared after each. Every call of every kind is accepted at least once. Then
 * the header's other means: storage at file scope, in a function and as members, tables that are const, walks by MOSS_WALK, names. */
#include "kinds.h"

#include <stdio.h>
#include <stdlib.h>
#include <string.h>

enum { SLOTS = 5, ARENA = 9, ORDERS = 20000, KEYS = 6 };

/* The same calls by the struct, which the macros IM, IS, BM and BS make of a table. */
#define IM(t) INT_MAP_STRUCT(moss_int_map, t)
#define IS(t) INT_SET_STRUCT(moss_int_set, t)
#define BM(t) BYTE_MAP_STRUCT(moss_byte_map, t)
#define BS(t) BYTE_SET_STRUCT(moss_byte_set, t)

INT_MAP_CALLS(im, IM)
INT_SET_CALLS(is, IS)
BYTE_MAP_CALLS(bm, BM)
BYTE_SET_CALLS(bs, BS)

/* And the reading ones by a view. */
#define IMV(t) INT_MAP_STRUCT(moss_int_map_view, t)
#define ISV(t) INT_SET_STRUCT(moss_int_set_view, t)
#define BMV(t) BYTE_MAP_STRUCT(moss_byte_map_view, t)
#define BSV(t) BYTE_SET_STRUCT(moss_byte_set_view, t)

INT_MAP_READS(imv, IMV)
INT_SET_READS(isv, ISV)
BYTE_MAP_READS(bmv, BMV)
BYTE_SET_READS(bsv, BSV)

/* In the order of `kinds`. */
static function *const structs[][FUNCTIONS] = {
    INT_MAP_CALLS_TABLE(im), INT_SET_CALLS_TABLE(is), BYTE_MAP_CALLS_TABLE(bm), BYTE_SET_CALLS_TABLE(bs)};
static function *const views[][FUNCTIONS] = {
    INT_MAP_READS_TABLE(imv), INT_SET_READS_TABLE(isv), BYTE_MAP_READS_TABLE(bmv), BYTE_SET_READS_TABLE(bsv)};

/* Tables of storage that the header's macros declare; an arena may have no bytes. */
MOSS_INT_MAP(int_map, 4);
MOSS_INT_SET(int_set, 4);
MOSS_BYTE_MAP(byte_map, 4, 3);
MOSS_BYTE_SET(byte_set, 1, 0);

static struct table empty(const struct kind *kind)
{
    struct table t = {0};
    for (size_t c = 0; c < kind->columns; c++) {
        t.columns[c].count = kind->bytes && c == kind->columns - 1 ? ARENA : SLOTS;
        t.columns[c].data = calloc(t.columns[c].count, kind->column[c].width);
    }
    return t;
}

static bool equal(const struct kind *kind, const struct table *a, const struct table *b)
{
    for (size_t c = 0; c < kind->columns; c++)
        if (memcmp(a->columns[c].data, b->columns[c].data, a->columns[c].count * kind->column[c].width) != 0)
            return false;
    return true;
}

static uint64_t below(uint64_t bound)
{
    static uint64_t state = 1;
    state = state * UINT64_C(6364136223846793005) + UINT64_C(1442695040888963407);
    return (state >> 33) % bound;
}

static struct order some_order(void)
{
    static uint8_t keys[KEYS][3] = {"", "a", "bc", "d", "ef", "g"};
    struct order o = {.key = below(KEYS), .value = below(100), .slot = below(SLOTS + 1), .asked = below(SLOTS + 1), .budget = below(4)};
    o.asked_bytes = below(ARENA + 1);
    o.which = below(2) == 0 ? MOSS_OCCUPIED : MOSS_VACANT;
    o.walk = below(SLOTS + 2);
    o.bytes = (struct array){.data = keys[o.key], .count = strlen((char *)keys[o.key])};
    return o;
}

static int wrong(const struct kind *kind, enum call call)
{
    printf("%s: call %d\n", kind->name, (int)call);
    return 1;
}

/* Gives the orders to both, each with a walk to lend. */
static int compare(size_t k)
{
    const struct kind *kind = &kinds[k];
    struct table tables[4] = {empty(kind), empty(kind), empty(kind), empty(kind)};
    unsigned long accepted[FUNCTIONS] = {0};
    for (int i = 0; i < ORDERS; i++) {
        enum call call = (enum call)below(FUNCTIONS);
        function *by_arrays = kind->functions[call], *by_struct = structs[k][call];
        if (by_arrays == NULL || (call <= CLEAR && below(10) != 0))
            continue;
        struct order o = some_order(), p = o;
        size_t on = below(2);
        uint64_t walks[2] = {o.walk, o.walk};
        o.lent = &walks[0], p.lent = &walks[1];
        o.table = &tables[on], o.other = &tables[1 - on], p.table = &tables[2 + on], p.other = &tables[3 - on];
        moss_answer a = by_arrays(&o), b = by_struct(&p);
        if (memcmp(&a, &b, sizeof a) != 0 || walks[0] != walks[1] || !equal(kind, &tables[0], &tables[2]) || !equal(kind, &tables[1], &tables[3]))
            return wrong(kind, call);
        uint64_t lent = p.walk;
        p.lent = &lent;
        if (views[k][call] != NULL && call != WALK_ON) {
            b = views[k][call](&p);
            if (memcmp(&a, &b, sizeof a) != 0)
                return wrong(kind, call);
        }
        accepted[call] += a.refusal == 0;
    }
    for (enum call call = 0; call < FUNCTIONS; call++)
        if (kind->functions[call] != NULL && accepted[call] == 0)
            return wrong(kind, call);
    return 0;
}

/* A table that a macro declares is empty and takes keys. */
static bool declared(void)
{
    const uint8_t key[] = {'a', 'b'};
    MOSS_INT_SET(inside, 2);
    bool right = moss_im_is_empty(&int_map).which == MOSS_EMPTY && moss_im_insert(&int_map, 0, 10).slot == 1;
    right = right && moss_is_insert(&int_set, 4).which == MOSS_FRESH && moss_is_contains(&int_set, 4).which == MOSS_PRESENT;
    right = right && moss_bm_insert(&byte_map, key, 2, 7).which == MOSS_FRESH && moss_bm_get(&byte_map, key, 2).value == 7;
    right = right && moss_bs_insert(&byte_set, NULL, 0).which == MOSS_FRESH && moss_bs_insert(&byte_set, key, 1).refusal == MOSS_REFUSED_NO_SLOT;
    return right && moss_is_insert(&inside, 9).which == MOSS_FRESH && moss_is_capacity(&inside).value == 2;
}

/* Tables as members of a struct. */
static bool members(void)
{
    struct {
        MOSS_INT_MAP_MEMBERS(im, 3);
        MOSS_INT_SET_MEMBERS(is, 4);
        MOSS_BYTE_MAP_MEMBERS(bm, 5, 6);
        MOSS_BYTE_SET_MEMBERS(bs, 6, 7);
    } own = {0};
    const moss_int_map im = MOSS_INT_MAP_IN(own, im);
    const moss_int_set is = MOSS_INT_SET_IN(own, is);
    const moss_byte_map bm = MOSS_BYTE_MAP_IN(own, bm);
    const moss_byte_set bs = MOSS_BYTE_SET_IN(own, bs);
    bool right = moss_im_capacity(&im).value == 3 && moss_is_capacity(&is).value == 4 && moss_bm_capacity(&bm).value == 5;
    right = right && moss_bs_capacity(&bs).value == 6 && bm.arena_size == 6 && bs.arena_size == 7;
    return right && moss_im_insert(&im, 8, 80).which == MOSS_FRESH && moss_im_get(&im, 8).value == 80;
}

/* A table in flash, by its view: slot 1 of 4 holds key 0, as in the scope's first line. Copied, and joined to another. */
static bool constant(void)
{
    static const uint8_t marks[4] = {0, 1, 0, 0};
    static const uint64_t keys[4] = {0}, values[4] = {0, 10, 0, 0};
    static const moss_int_map_view flash = {marks, keys, values, 4};
    MOSS_INT_MAP(copied, 4);
    MOSS_INT_MAP(joined, 2);
    bool right = moss_imv_get(&flash, 0).value == 10 && moss_im_copy_view(&copied, &flash).which == MOSS_DONE;
    right = right && moss_im_get(&copied, 0).value == 10 && moss_im_union_prefer_right_view(&joined, &flash).which == MOSS_DONE;
    return right && moss_im_get(&joined, 0).value == 10;
}

/* MOSS_WALK hands out each pair once, its slot behind the walk; a damaged slot ends it with its refusal. */
static bool walked(void)
{
    MOSS_INT_MAP(table, 4);
    moss_answer pair;
    uint64_t sum = 0;
    bool right = moss_int_map_walk_start() + moss_int_set_walk_start() + moss_byte_map_walk_start() + moss_byte_set_walk_start() == 0;
    for (uint64_t key = 1; key <= 3; key++)
        right = right && moss_im_insert(&table, key, 10 * key).which == MOSS_FRESH;
    MOSS_WALK (im, &table, pair) {
        sum += pair.value;
        right = right && table.keys[pair.walk - 1] == pair.key;
    }
    right = right && sum == 60 && pair.refusal == 0 && pair.which == MOSS_WALK_DONE;
    table.marks[3] = 9;
    MOSS_WALK (im, &table, pair)
        sum += 1;
    return right && pair.refusal == MOSS_REFUSED_DAMAGED && sum <= 63;
}

/* The first `count` names are each another, and those behind them one and the same. */
static bool apart(const char *(*name)(uint64_t), uint64_t count)
{
    for (uint64_t n = 0; n <= count; n++)
        for (uint64_t m = 0; m < n; m++)
            if (strcmp(name(n), name(m)) == 0)
                return false;
    return strcmp(name(count), name(UINT64_MAX)) == 0;
}

static bool named(void)
{
    return apart(moss_refusal_name, MOSS_REFUSED_NO_BYTES + 1) && apart(moss_case_name, MOSS_NOW + 1);
}

int main(void)
{
    static const struct {
        const char *name;
        bool (*right)(void);
    } parts[] = {{"declared", declared}, {"members", members}, {"constant", constant}, {"walked", walked}, {"named", named}};
    int failed = 0;
    for (size_t i = 0; i < sizeof parts / sizeof parts[0]; i++)
        if (!parts[i].right())
            failed += printf("%s\n", parts[i].name) > 0;
    for (size_t k = 0; k < sizeof kinds / sizeof kinds[0]; k++)
        failed += compare(k);
    return failed;
}
