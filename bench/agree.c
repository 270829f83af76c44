/* Compares bench/plain.c with the library: random calls on random and on sound tables, answers and memory. Prints how many agree;
 * the status is 2 at the first that does not. */
#include "arrays.h"
#include "plain.h"

#include <stdbool.h>
#include <stdio.h>
#include <string.h>

enum { LONGEST = 256, TRIALS = 3000, CALLS = 16, LARGE_CALLS = 400 };

/* A table of either kind: its arrays and their counts, which may disagree. */
struct table {
    ARRAYS;
    size_t marks_count, keys_count, offsets_count, lengths_count, values_count, arena_count;
};

#define INTS(t) (t)->marks, (t)->marks_count, (t)->keys, (t)->keys_count, (t)->values, (t)->values_count
#define SPANS(t) \
    (t)->marks, (t)->marks_count, (t)->offsets, (t)->offsets_count, (t)->lengths, (t)->lengths_count, (t)->values, (t)->values_count, \
    (t)->arena, (t)->arena_count

/* The table of the library, that of the plain C, and the right one of unions. */
static struct table ours, theirs, right;
static uint8_t key[LONGEST];
static uint64_t state = 1;

/* A number below `limit`, by xorshift. */
static uint64_t below(uint64_t limit)
{
    state ^= state << 13;
    state ^= state >> 7;
    state ^= state << 17;
    return (state >> 11) % limit;
}

/* A count that is seldom another one. */
static size_t perhaps(size_t count)
{
    return below(40) != 0 ? count : below(2) == 0 || count == 0 ? count + 1 : count - 1;
}

/* A table of at most `slots` slots, all zeros, or any numbers where it need not be sound. */
static void begin(struct table *t, size_t slots, size_t arena, bool sound)
{
    memset(t, 0, sizeof *t);
    t->marks_count = t->keys_count = t->offsets_count = t->lengths_count = t->values_count = slots;
    t->arena_count = arena;
    if (sound)
        return;
    t->marks_count = perhaps(slots);
    t->keys_count = perhaps(slots);
    t->offsets_count = perhaps(slots);
    t->lengths_count = perhaps(slots);
    t->values_count = perhaps(slots);
    for (size_t i = 0; i <= slots; i++) {
        t->marks[i] = (uint8_t)(below(60) != 0 ? below(3) : below(256));
        t->keys[i] = below(12);
        t->lengths[i] = (uint8_t)(below(30) != 0 ? below(3) : below(256));
        t->offsets[i] = (uint16_t)(below(60) != 0 ? below(arena + 1) / 2 : below(65536));
        t->values[i] = below(100);
    }
    for (size_t i = 0; i < arena; i++)
        t->arena[i] = (uint8_t)('a' + below(2));
}

/* A key of letters. Its length: seldom above `longest`. */
static size_t new_key(size_t longest)
{
    size_t length = below(30) != 0 ? below(longest + 1) : LONGEST - below(2);
    for (size_t i = 0; i < length; i++)
        key[i] = (uint8_t)('a' + below(2));
    return length;
}

/* Some pairs go into a byte map; refusals do not matter. */
static void some_pairs(struct table *t, unsigned count, size_t longest)
{
    for (unsigned i = 0; i < count; i++) {
        size_t length = new_key(longest);
        moss_answer answer = moss_byte_map_insert(SPANS(t), key, length, i);
        (void)answer;
    }
}

/* The call of this number, by the library and by the plain C. */
static void call(unsigned which, uint64_t word, size_t length, moss_answer *a, moss_answer *b)
{
    uint64_t value = below(1000), walk = below(ours.marks_count + 2), budget = below(4);
    switch (which) {
    case 0: *a = moss_int_map_get(INTS(&ours), word); *b = plain_int_map_get(INTS(&theirs), word); break;
    case 1: *a = moss_int_map_insert(INTS(&ours), word, value); *b = plain_int_map_insert(INTS(&theirs), word, value); break;
    case 2: *a = moss_int_map_remove(INTS(&ours), word); *b = plain_int_map_remove(INTS(&theirs), word); break;
    case 3: *a = moss_int_map_step(INTS(&ours), walk, budget); *b = plain_int_map_step(INTS(&theirs), walk, budget); break;
    case 4: *a = moss_byte_map_get(SPANS(&ours), key, length); *b = plain_byte_map_get(SPANS(&theirs), key, length); break;
    case 5:
        *a = moss_byte_map_insert(SPANS(&ours), key, length, value);
        *b = plain_byte_map_insert(SPANS(&theirs), key, length, value);
        break;
    case 6: *a = moss_byte_map_remove(SPANS(&ours), key, length); *b = plain_byte_map_remove(SPANS(&theirs), key, length); break;
    default:
        *a = moss_byte_map_union_prefer_right(SPANS(&ours), SPANS(&right));
        *b = plain_byte_map_union_prefer_right(SPANS(&theirs), SPANS(&right));
    }
}

/* Makes so many calls of one kind of table on `ours` and on its twin. False at the first that differs. */
static bool agree(bool bytes, unsigned calls, size_t longest, uint64_t words)
{
    memcpy(&theirs, &ours, sizeof ours);
    for (unsigned i = 0; i < calls; i++) {
        moss_answer a, b;
        unsigned which = (unsigned)(bytes ? 4 + below(4) : below(4));
        call(which, below(words), new_key(longest), &a, &b);
        if (memcmp(&a, &b, sizeof a) != 0 || memcmp(&ours, &theirs, sizeof ours) != 0) {
            fprintf(stderr, "agree: call %u of %zu slots differs: refusal %llu and %llu\n", which, ours.marks_count,
                (unsigned long long)a.refusal, (unsigned long long)b.refusal);
            return false;
        }
    }
    return true;
}

int main(void)
{
    unsigned long done = 0;
    for (unsigned i = 0; i < TRIALS; i++) {
        bool sound = below(2) == 0, bytes = below(2) == 0;
        begin(&ours, below(9), below(24), sound);
        begin(&right, below(5), below(12), below(2) == 0);
        some_pairs(&right, 4, 3);
        if (!agree(bytes, CALLS, 3, 12))
            return 2;
        done += CALLS;
    }
    for (unsigned bytes = 0; bytes < 2; bytes++) {
        begin(&ours, SLOTS, ARENA, true);
        begin(&right, 64, ARENA, true);
        some_pairs(&right, 40, 12);
        if (!agree(bytes, LARGE_CALLS, 12, 3000))
            return 2;
        done += LARGE_CALLS;
    }
    printf("the library and the plain C agree in %lu calls\n", done);
    return 0;
}
