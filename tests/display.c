/* Compares the library's digest and home slot with this program's own FNV-1a and home, over lengths 0 to 600, random bytes,
 * slot counts right and wrong, and a null pointer with length 0. Stops at the first difference and says what differed. */
#include "mosspillow.h"

#include <inttypes.h>
#include <stdio.h>
#include <stdlib.h>

enum { LONGEST = 600, ROUNDS = 4 };

static unsigned long compared = 0;

/* The authors' algorithm: exclusive-or the byte in, then multiply. */
static uint64_t own_digest(const uint8_t *bytes, size_t length)
{
    uint64_t hash = UINT64_C(0xcbf29ce484222325);
    for (size_t i = 0; i < length; i++) {
        hash ^= bytes[i];
        hash *= UINT64_C(0x100000001b3);
    }
    return hash;
}

/* The paper's home slot as C is to see it: refusal 1, then refusal 2, then the slot. */
static uint64_t own_home(const uint8_t *bytes, size_t length, uint64_t slots)
{
    if (slots == 0 || slots > 4096)
        return 65536 + 1;
    if (length > 255)
        return 65536 + 2;
    return own_digest(bytes, length) % slots;
}

/* A seeded generator (SplitMix64), the same on every machine. */
static uint64_t next_random(uint64_t *state)
{
    uint64_t z = (*state += UINT64_C(0x9e3779b97f4a7c15));
    z = (z ^ (z >> 30)) * UINT64_C(0xbf58476d1ce4e5b9);
    z = (z ^ (z >> 27)) * UINT64_C(0x94d049bb133111eb);
    return z ^ (z >> 31);
}

static void same(const char *what, size_t length, uint64_t slots, uint64_t got, uint64_t due)
{
    compared++;
    if (got == due)
        return;
    printf("%s of %zu bytes, %" PRIu64 " slots: the library says %" PRIu64 ", this program %" PRIu64 "\n", what, length, slots, got, due);
    exit(1);
}

/* Every call on one key. */
static void compare(const uint8_t *bytes, size_t length)
{
    static const uint64_t counts[] = {0, 1, 2, 3, 4, 255, 4096, 4097, UINT64_C(1) << 32, UINT64_MAX};
    same("digest", length, 0, moss_digest(bytes, length), own_digest(bytes, length));
    for (size_t i = 0; i < sizeof counts / sizeof counts[0]; i++)
        same("home", length, counts[i], moss_home(bytes, length, counts[i]), own_home(bytes, length, counts[i]));
}

int main(void)
{
    static uint8_t bytes[LONGEST];
    uint64_t state = 1;
    compare(NULL, 0);
    for (size_t length = 0; length <= LONGEST; length++) {
        for (int round = 0; round < ROUNDS; round++) {
            for (size_t i = 0; i < length; i++)
                bytes[i] = (uint8_t)next_random(&state);
            compare(bytes, length);
            uint64_t slots = next_random(&state) % 5000;
            same("home", length, slots, moss_home(bytes, length, slots), own_home(bytes, length, slots));
        }
    }
    /* What the paper and the authors say outright: both faults at once, the edges, and two published digests. */
    same("home", 256, 0, moss_home(bytes, 256, 0), 65537);
    same("home", 256, 4097, moss_home(bytes, 256, 4097), 65537);
    same("home", 256, UINT64_C(1) << 32, moss_home(bytes, 256, UINT64_C(1) << 32), 65537);
    same("home", 256, 4096, moss_home(bytes, 256, 4096), 65538);
    same("home", 255, 1, moss_home(bytes, 255, 1), 0);
    same("digest", 0, 0, moss_digest(NULL, 0), UINT64_C(0xcbf29ce484222325));
    same("digest", 6, 0, moss_digest((const uint8_t *)"foobar", 6), UINT64_C(0x85944171f73967e8));
    printf("%lu comparisons, no difference\n", compared);
    return 0;
}
