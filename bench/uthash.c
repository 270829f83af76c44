/* The calls of bench/others.h by uthash. Pairs stand in a store of their own, so that no call asks for memory of the heap but for
 * uthash's own buckets. */
#include "others.h"

#include <string.h>
#include <uthash.h>

enum { PAIRS = 4097, LONGEST = 32 };

struct pair {
    uint64_t word;
    uint8_t bytes[LONGEST];
    uint64_t value;
    struct pair *next;
    UT_hash_handle hh;
};

static struct pair store[PAIRS];
static struct pair *head, *unused;
static size_t taken;

static struct pair *take(void)
{
    struct pair *pair = unused;
    if (pair == NULL)
        return &store[taken++];
    unused = pair->next;
    return pair;
}

static int drop(struct pair *pair)
{
    if (pair == NULL)
        return 0;
    HASH_DEL(head, pair);
    pair->next = unused;
    unused = pair;
    return 1;
}

static const uint64_t *int_get(uint64_t key)
{
    struct pair *pair;
    HASH_FIND(hh, head, &key, sizeof key, pair);
    return pair == NULL ? NULL : &pair->value;
}

static int int_insert(uint64_t key, uint64_t value)
{
    struct pair *pair;
    HASH_FIND(hh, head, &key, sizeof key, pair);
    int present = pair != NULL;
    if (!present) {
        pair = take();
        pair->word = key;
        HASH_ADD(hh, head, word, sizeof key, pair);
    }
    pair->value = value;
    return present;
}

static int int_remove(uint64_t key)
{
    struct pair *pair;
    HASH_FIND(hh, head, &key, sizeof key, pair);
    return drop(pair);
}

static const uint64_t *byte_get(const uint8_t *key, size_t length)
{
    struct pair *pair;
    HASH_FIND(hh, head, key, length, pair);
    return pair == NULL ? NULL : &pair->value;
}

static int byte_insert(const uint8_t *key, size_t length, uint64_t value)
{
    struct pair *pair;
    HASH_FIND(hh, head, key, length, pair);
    int present = pair != NULL;
    if (!present) {
        pair = take();
        memcpy(pair->bytes, key, length);
        HASH_ADD(hh, head, bytes, length, pair);
    }
    pair->value = value;
    return present;
}

static int byte_remove(const uint8_t *key, size_t length)
{
    struct pair *pair;
    HASH_FIND(hh, head, key, length, pair);
    return drop(pair);
}

const struct other uthash_table = {int_get, int_insert, int_remove, byte_get, byte_insert, byte_remove};
