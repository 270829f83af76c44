/* Mosspillow for C and C++: maps and sets over lent slot arrays.
 * Link with the archive libmosspillow.a for your processor, which `bash tools/library` builds: x86-64, AArch64, ARMv7, Cortex-M0, M3
 * and M4, or RV32.
 *
 * A call takes each lent array as a pointer and a count of elements. The counts must be true and the pointers valid for them. The
 * arrays lent to one call must not overlap, those of the two tables of union and copy and the key's bytes included. A null pointer is
 * allowed where the count is 0. Any contents are allowed: a call answers, or refuses and stores nothing. That a key is there, or is
 * not, is said of sound tables: those that were made, or copied from such, and changed by these calls alone (docs/MANUAL.md). The
 * second half of this header has each table as a struct, its storage, and the same calls on it.
 * For C99 and later, and C++98 and later. */
#ifndef MOSSPILLOW_H
#define MOSSPILLOW_H

#include <stddef.h>
#include <stdint.h>

#define MOSS_VERSION_MAJOR 1
#define MOSS_VERSION_MINOR 0
#define MOSS_VERSION_PATCH 0
#define MOSS_VERSION "1.0.0"

/* The processors that there are archives for, all of them little-endian. On x86-64 a call is the archive's own function. Elsewhere that
 * function has `_wide` behind its name, counts of 64 bits, and its answer through a pointer, so that it is called alike whatever rules
 * for structs a processor has; the call is then an inline function at the end of this header. */
#if defined(__ARM_BIG_ENDIAN) || (defined(__BYTE_ORDER__) && __BYTE_ORDER__ != __ORDER_LITTLE_ENDIAN__)
#define MOSS_ARCHIVE 0
#define MOSS_CALL
#elif defined(__x86_64__) && !defined(__ILP32__)
#define MOSS_ARCHIVE 1
#define MOSS_CALL
#elif (defined(__aarch64__) && !defined(__ILP32__)) || (defined(__arm__) && __ARM_ARCH >= 6) || (defined(__riscv) && __riscv_xlen == 32)
#define MOSS_ARCHIVE 1
#define MOSS_WIDE
#define MOSS_CALL static inline
#else
#define MOSS_ARCHIVE 0
#define MOSS_CALL
#endif

/* For any other processor, or one whose bytes are in the other order, the header does not compile. */
typedef char moss_no_archive_for_this_processor[MOSS_ARCHIVE && sizeof(size_t) <= sizeof(uint64_t) ? 1 : -1];

#ifdef __cplusplus
#define MOSS_RESTRICT
extern "C" {
#else
#define MOSS_RESTRICT restrict
#endif

/* Of an answer that a program must look at: whether the call was refused. The compiler warns where it is dropped. */
#if defined(__GNUC__)
#define MOSS_CHECK __attribute__((warn_unused_result))
#else
#define MOSS_CHECK
#endif

/* Why a call is refused. Of those that apply the lowest is given. */
enum {
    MOSS_REFUSED_SIZES = 1,       /* lent arrays disagree in count, no slots or above 4096, arena above 32768, copy: sizes differ */
    MOSS_REFUSED_LONG_KEY = 2,    /* byte key above 255 bytes */
    MOSS_REFUSED_NO_BUDGET = 3,   /* walk step with budget 0 */
    MOSS_REFUSED_WALK_BEYOND = 4, /* walk beyond the last slot */
    MOSS_REFUSED_DAMAGED = 5,     /* an examined slot has a mark above 2, or is live with a key that ends past the arena; byte insert,
                                   * entry, remove, union, vacant handles and removal by handle: also where the live keys together
                                   * are longer than the arena, or one ends past the sum of their lengths */
    MOSS_REFUSED_BAD_HANDLE = 6,  /* handle not good */
    MOSS_REFUSED_NO_SLOT = 7,     /* too few free slots */
    MOSS_REFUSED_NO_BYTES = 8     /* too few free bytes */
};

/* What a call that is not refused answers. */
enum {
    MOSS_DONE = 1,
    MOSS_COUNT = 2,
    MOSS_EMPTY = 3,
    MOSS_HOLDS = 4,
    MOSS_ROOM = 5,
    MOSS_FOUND = 6,
    MOSS_PRESENT = 7,
    MOSS_ABSENT = 8,
    MOSS_FRESH = 9,
    MOSS_REPLACED = 10,
    MOSS_REMOVED = 11,
    MOSS_OCCUPIED = 12,
    MOSS_VACANT = 13,
    MOSS_PAIR = 14,
    MOSS_NOTHING = 15,
    MOSS_WALK_DONE = 16,
    MOSS_VALUE = 17,
    MOSS_WAS = 18,
    MOSS_NOW = 19
};

/* An answer. Numbers that it does not have are 0. */
typedef struct moss_answer {
    uint64_t refusal;  /* 0, or why the call is refused */
    uint64_t which;    /* the case, 0 where refused */
    uint64_t key;
    uint64_t value;    /* also a count */
    uint64_t slot;     /* also an entry's handle */
    uint64_t examined; /* how many slots the key's path, or the step, examined */
    uint64_t walk;     /* where the walk stands; the slot of a pair that was handed out is walk - 1 */
    uint64_t offset;   /* where a byte key stands in the arena */
    uint64_t length;   /* how many bytes it has */
} moss_answer;

/* The name of a refusal, "none" for 0. */
static inline const char *moss_refusal_name(uint64_t refusal)
{
    switch (refusal) {
    case 0: return "none";
    case MOSS_REFUSED_SIZES: return "sizes";
    case MOSS_REFUSED_LONG_KEY: return "long key";
    case MOSS_REFUSED_NO_BUDGET: return "no budget";
    case MOSS_REFUSED_WALK_BEYOND: return "walk beyond";
    case MOSS_REFUSED_DAMAGED: return "damaged";
    case MOSS_REFUSED_BAD_HANDLE: return "bad handle";
    case MOSS_REFUSED_NO_SLOT: return "no slot";
    case MOSS_REFUSED_NO_BYTES: return "no bytes";
    default: return "no refusal of this version";
    }
}

/* The name of an answer's case, "refused" for 0. */
static inline const char *moss_case_name(uint64_t which)
{
    switch (which) {
    case 0: return "refused";
    case MOSS_DONE: return "done";
    case MOSS_COUNT: return "count";
    case MOSS_EMPTY: return "empty";
    case MOSS_HOLDS: return "holds";
    case MOSS_ROOM: return "room";
    case MOSS_FOUND: return "found";
    case MOSS_PRESENT: return "present";
    case MOSS_ABSENT: return "absent";
    case MOSS_FRESH: return "fresh";
    case MOSS_REPLACED: return "replaced";
    case MOSS_REMOVED: return "removed";
    case MOSS_OCCUPIED: return "occupied";
    case MOSS_VACANT: return "vacant";
    case MOSS_PAIR: return "pair";
    case MOSS_NOTHING: return "nothing";
    case MOSS_WALK_DONE: return "walk done";
    case MOSS_VALUE: return "value";
    case MOSS_WAS: return "was";
    case MOSS_NOW: return "now";
    default: return "no case of this version";
    }
}

/* The digest (FNV-1a, 64 bits) of `length` bytes, of any length. */
MOSS_CALL uint64_t moss_digest(const uint8_t *bytes, size_t length);

/* The home slot of a byte key among `slots` slots: its digest modulo `slots`.
 * Where it is refused, 65536 plus the number of the refusal: 65537 where `slots` is 0 or above 4096, and else
 * 65538 where `length` is above 255. */
MOSS_CALL uint64_t moss_home(const uint8_t *bytes, size_t length, uint64_t slots);

/* The integer map: marks, u64 keys and u64 values. A handle is the slot that an entry answers, with the key given again; where
 * `which` is asked it is the answer's case. A number that is neither MOSS_OCCUPIED nor MOSS_VACANT counts as a vacant handle that is
 * never good. */

/* from the list: declarations of int_map */
/* Makes an empty map of the lent arrays: every mark and word becomes 0. MOSS_DONE. Refuses 1. */
MOSS_CHECK MOSS_CALL moss_answer moss_int_map_make(uint8_t *MOSS_RESTRICT marks, size_t marks_count,
    uint64_t *MOSS_RESTRICT keys, size_t keys_count, uint64_t *MOSS_RESTRICT values, size_t values_count);

/* Empties a map, as make does. MOSS_DONE. Refuses 1. */
MOSS_CHECK MOSS_CALL moss_answer moss_int_map_clear(uint8_t *MOSS_RESTRICT marks, size_t marks_count,
    uint64_t *MOSS_RESTRICT keys, size_t keys_count, uint64_t *MOSS_RESTRICT values, size_t values_count);

/* The number of slots. MOSS_COUNT with value. Refuses 1. */
MOSS_CHECK MOSS_CALL moss_answer moss_int_map_capacity(const uint8_t *MOSS_RESTRICT marks, size_t marks_count,
    const uint64_t *MOSS_RESTRICT keys, size_t keys_count, const uint64_t *MOSS_RESTRICT values, size_t values_count);

/* The number of live slots, which on a sound table is that of its keys. MOSS_COUNT with value. Refuses 1, 5. */
MOSS_CHECK MOSS_CALL moss_answer moss_int_map_len(const uint8_t *MOSS_RESTRICT marks, size_t marks_count,
    const uint64_t *MOSS_RESTRICT keys, size_t keys_count, const uint64_t *MOSS_RESTRICT values, size_t values_count);

/* Whether no slot is live. MOSS_EMPTY or MOSS_HOLDS. Refuses 1, 5. */
MOSS_CHECK MOSS_CALL moss_answer moss_int_map_is_empty(const uint8_t *MOSS_RESTRICT marks, size_t marks_count,
    const uint64_t *MOSS_RESTRICT keys, size_t keys_count, const uint64_t *MOSS_RESTRICT values, size_t values_count);

/* Whether `asked` slots or more are not live. MOSS_ROOM. Refuses 1, 5, 7. */
MOSS_CHECK MOSS_CALL moss_answer moss_int_map_reserve(const uint8_t *MOSS_RESTRICT marks, size_t marks_count,
    const uint64_t *MOSS_RESTRICT keys, size_t keys_count, const uint64_t *MOSS_RESTRICT values, size_t values_count,
    uint64_t asked);

/* The value of a key. MOSS_FOUND with value, slot and examined, or MOSS_ABSENT with examined. Refuses 1, 5. */
MOSS_CHECK MOSS_CALL moss_answer moss_int_map_get(const uint8_t *MOSS_RESTRICT marks, size_t marks_count,
    const uint64_t *MOSS_RESTRICT keys, size_t keys_count, const uint64_t *MOSS_RESTRICT values, size_t values_count, uint64_t key);

/* Whether a key is there. MOSS_PRESENT or MOSS_ABSENT with examined. Refuses 1, 5. */
MOSS_CHECK MOSS_CALL moss_answer moss_int_map_contains_key(const uint8_t *MOSS_RESTRICT marks, size_t marks_count,
    const uint64_t *MOSS_RESTRICT keys, size_t keys_count, const uint64_t *MOSS_RESTRICT values, size_t values_count, uint64_t key);

/* Gives a key its value. MOSS_FRESH with slot and examined, or MOSS_REPLACED with the old value too. Refuses 1, 5, 7. */
MOSS_CHECK MOSS_CALL moss_answer moss_int_map_insert(uint8_t *MOSS_RESTRICT marks, size_t marks_count,
    uint64_t *MOSS_RESTRICT keys, size_t keys_count, uint64_t *MOSS_RESTRICT values, size_t values_count, uint64_t key,
    uint64_t value);

/* Takes a key out. MOSS_REMOVED with its value, slot and examined, or MOSS_ABSENT with examined. Refuses 1, 5. */
MOSS_CHECK MOSS_CALL moss_answer moss_int_map_remove(uint8_t *MOSS_RESTRICT marks, size_t marks_count,
    uint64_t *MOSS_RESTRICT keys, size_t keys_count, uint64_t *MOSS_RESTRICT values, size_t values_count, uint64_t key);

/* Makes the map of the to_ arrays equal to the other in every slot; both have the same sizes. MOSS_DONE. Refuses 1. */
MOSS_CHECK MOSS_CALL moss_answer moss_int_map_copy(uint8_t *MOSS_RESTRICT to_marks, size_t to_marks_count,
    uint64_t *MOSS_RESTRICT to_keys, size_t to_keys_count, uint64_t *MOSS_RESTRICT to_values, size_t to_values_count,
    const uint8_t *MOSS_RESTRICT marks, size_t marks_count, const uint64_t *MOSS_RESTRICT keys, size_t keys_count,
    const uint64_t *MOSS_RESTRICT values, size_t values_count);

/* Puts the right's pairs into the left (marks, keys, values), all or none; the right may have another slot count. MOSS_DONE.
 * Refuses 1, 5, 7. */
MOSS_CHECK MOSS_CALL moss_answer moss_int_map_union_prefer_right(uint8_t *MOSS_RESTRICT marks, size_t marks_count,
    uint64_t *MOSS_RESTRICT keys, size_t keys_count, uint64_t *MOSS_RESTRICT values, size_t values_count,
    const uint8_t *MOSS_RESTRICT right_marks, size_t right_marks_count,
    const uint64_t *MOSS_RESTRICT right_keys, size_t right_keys_count,
    const uint64_t *MOSS_RESTRICT right_values, size_t right_values_count);

/* Where a key stands or would go. MOSS_OCCUPIED with slot, value and examined, or MOSS_VACANT with slot and examined. Refuses 1,
 * 5, 7. */
MOSS_CHECK MOSS_CALL moss_answer moss_int_map_entry(const uint8_t *MOSS_RESTRICT marks, size_t marks_count,
    const uint64_t *MOSS_RESTRICT keys, size_t keys_count, const uint64_t *MOSS_RESTRICT values, size_t values_count, uint64_t key);

/* An occupied handle's value. MOSS_VALUE with value and slot. Refuses 1, 5, 6. */
MOSS_CHECK MOSS_CALL moss_answer moss_int_map_occupied_get(const uint8_t *MOSS_RESTRICT marks, size_t marks_count,
    const uint64_t *MOSS_RESTRICT keys, size_t keys_count, const uint64_t *MOSS_RESTRICT values, size_t values_count, uint64_t slot,
    uint64_t key);

/* Gives an occupied handle's slot another value. MOSS_WAS with the old value and slot. Refuses 1, 5, 6. */
MOSS_CHECK MOSS_CALL moss_answer moss_int_map_occupied_set(uint8_t *MOSS_RESTRICT marks, size_t marks_count,
    uint64_t *MOSS_RESTRICT keys, size_t keys_count, uint64_t *MOSS_RESTRICT values, size_t values_count, uint64_t slot,
    uint64_t key, uint64_t value);

/* Frees an occupied handle's slot. MOSS_REMOVED with value. Refuses 1, 5, 6. */
MOSS_CHECK MOSS_CALL moss_answer moss_int_map_occupied_remove(uint8_t *MOSS_RESTRICT marks, size_t marks_count,
    uint64_t *MOSS_RESTRICT keys, size_t keys_count, uint64_t *MOSS_RESTRICT values, size_t values_count, uint64_t slot,
    uint64_t key);

/* The same, with the key told too. MOSS_REMOVED with key and value. Refuses 1, 5, 6. */
MOSS_CHECK MOSS_CALL moss_answer moss_int_map_occupied_remove_entry(uint8_t *MOSS_RESTRICT marks, size_t marks_count,
    uint64_t *MOSS_RESTRICT keys, size_t keys_count, uint64_t *MOSS_RESTRICT values, size_t values_count, uint64_t slot,
    uint64_t key);

/* Puts the key and a value into a vacant handle's slot. MOSS_NOW with value and slot. Refuses 1, 5, 6. */
MOSS_CHECK MOSS_CALL moss_answer moss_int_map_vacant_insert(uint8_t *MOSS_RESTRICT marks, size_t marks_count,
    uint64_t *MOSS_RESTRICT keys, size_t keys_count, uint64_t *MOSS_RESTRICT values, size_t values_count, uint64_t slot,
    uint64_t key, uint64_t value);

/* Keeps the value of an occupied handle, or puts `value` into a vacant one's slot. MOSS_NOW with the value now there and slot.
 * Refuses 1, 5, 6. */
MOSS_CHECK MOSS_CALL moss_answer moss_int_map_or_insert(uint8_t *MOSS_RESTRICT marks, size_t marks_count,
    uint64_t *MOSS_RESTRICT keys, size_t keys_count, uint64_t *MOSS_RESTRICT values, size_t values_count, uint64_t which,
    uint64_t slot, uint64_t key, uint64_t value);

/* Gives an occupied handle's slot the value, or puts it into a vacant one's slot. MOSS_NOW with value and slot. Refuses 1, 5, 6.
 * */
MOSS_CHECK MOSS_CALL moss_answer moss_int_map_insert_entry(uint8_t *MOSS_RESTRICT marks, size_t marks_count,
    uint64_t *MOSS_RESTRICT keys, size_t keys_count, uint64_t *MOSS_RESTRICT values, size_t values_count, uint64_t which,
    uint64_t slot, uint64_t key, uint64_t value);

/* Where a walk starts: 0. */
MOSS_CALL uint64_t moss_int_map_walk_start(void);

/* One step of a walk over at most `budget` slots. MOSS_PAIR with key, value, walk and examined, MOSS_NOTHING with walk and
 * examined, or MOSS_WALK_DONE with walk. Refuses 1, 3, 4, 5, with the walk as it came. */
MOSS_CHECK MOSS_CALL moss_answer moss_int_map_step(const uint8_t *MOSS_RESTRICT marks, size_t marks_count,
    const uint64_t *MOSS_RESTRICT keys, size_t keys_count, const uint64_t *MOSS_RESTRICT values, size_t values_count, uint64_t walk,
    uint64_t budget);

/* The same step of a lent walk, which moves on in its place: afterwards it is the answer's walk. `walk` may not be NULL, nor lie
 * in a lent array. */
MOSS_CHECK MOSS_CALL moss_answer moss_int_map_walk_on(const uint8_t *MOSS_RESTRICT marks, size_t marks_count,
    const uint64_t *MOSS_RESTRICT keys, size_t keys_count, const uint64_t *MOSS_RESTRICT values, size_t values_count,
    uint64_t *MOSS_RESTRICT walk, uint64_t budget);
/* end of declarations of int_map */

/* The integer set: marks and u64 keys. */

/* from the list: declarations of int_set */
/* Makes an empty set of the lent arrays: every mark and word becomes 0. MOSS_DONE. Refuses 1. */
MOSS_CHECK MOSS_CALL moss_answer moss_int_set_make(uint8_t *MOSS_RESTRICT marks, size_t marks_count,
    uint64_t *MOSS_RESTRICT keys, size_t keys_count);

/* Empties a set, as make does. MOSS_DONE. Refuses 1. */
MOSS_CHECK MOSS_CALL moss_answer moss_int_set_clear(uint8_t *MOSS_RESTRICT marks, size_t marks_count,
    uint64_t *MOSS_RESTRICT keys, size_t keys_count);

/* The number of slots. MOSS_COUNT with value. Refuses 1. */
MOSS_CHECK MOSS_CALL moss_answer moss_int_set_capacity(const uint8_t *MOSS_RESTRICT marks, size_t marks_count,
    const uint64_t *MOSS_RESTRICT keys, size_t keys_count);

/* The number of live slots, which on a sound table is that of its keys. MOSS_COUNT with value. Refuses 1, 5. */
MOSS_CHECK MOSS_CALL moss_answer moss_int_set_len(const uint8_t *MOSS_RESTRICT marks, size_t marks_count,
    const uint64_t *MOSS_RESTRICT keys, size_t keys_count);

/* Whether no slot is live. MOSS_EMPTY or MOSS_HOLDS. Refuses 1, 5. */
MOSS_CHECK MOSS_CALL moss_answer moss_int_set_is_empty(const uint8_t *MOSS_RESTRICT marks, size_t marks_count,
    const uint64_t *MOSS_RESTRICT keys, size_t keys_count);

/* Whether `asked` slots or more are not live. MOSS_ROOM. Refuses 1, 5, 7. */
MOSS_CHECK MOSS_CALL moss_answer moss_int_set_reserve(const uint8_t *MOSS_RESTRICT marks, size_t marks_count,
    const uint64_t *MOSS_RESTRICT keys, size_t keys_count, uint64_t asked);

/* The key itself. MOSS_FOUND with key, slot and examined, or MOSS_ABSENT with examined. Refuses 1, 5. */
MOSS_CHECK MOSS_CALL moss_answer moss_int_set_get(const uint8_t *MOSS_RESTRICT marks, size_t marks_count,
    const uint64_t *MOSS_RESTRICT keys, size_t keys_count, uint64_t key);

/* Whether a key is there. MOSS_PRESENT or MOSS_ABSENT with examined. Refuses 1, 5. */
MOSS_CHECK MOSS_CALL moss_answer moss_int_set_contains(const uint8_t *MOSS_RESTRICT marks, size_t marks_count,
    const uint64_t *MOSS_RESTRICT keys, size_t keys_count, uint64_t key);

/* Puts a key in. MOSS_FRESH, or MOSS_REPLACED where it was there already, with slot and examined. Refuses 1, 5, 7. */
MOSS_CHECK MOSS_CALL moss_answer moss_int_set_insert(uint8_t *MOSS_RESTRICT marks, size_t marks_count,
    uint64_t *MOSS_RESTRICT keys, size_t keys_count, uint64_t key);

/* Takes a key out. MOSS_REMOVED with slot and examined, or MOSS_ABSENT with examined. Refuses 1, 5. */
MOSS_CHECK MOSS_CALL moss_answer moss_int_set_remove(uint8_t *MOSS_RESTRICT marks, size_t marks_count,
    uint64_t *MOSS_RESTRICT keys, size_t keys_count, uint64_t key);

/* Makes the set of the to_ arrays equal to the other in every slot; both have the same sizes. MOSS_DONE. Refuses 1. */
MOSS_CHECK MOSS_CALL moss_answer moss_int_set_copy(uint8_t *MOSS_RESTRICT to_marks, size_t to_marks_count,
    uint64_t *MOSS_RESTRICT to_keys, size_t to_keys_count, const uint8_t *MOSS_RESTRICT marks, size_t marks_count,
    const uint64_t *MOSS_RESTRICT keys, size_t keys_count);

/* Where a walk starts: 0. */
MOSS_CALL uint64_t moss_int_set_walk_start(void);

/* One step of a walk over at most `budget` slots. MOSS_PAIR with key, walk and examined, MOSS_NOTHING with walk and examined, or
 * MOSS_WALK_DONE with walk. Refuses 1, 3, 4, 5, with the walk as it came. */
MOSS_CHECK MOSS_CALL moss_answer moss_int_set_step(const uint8_t *MOSS_RESTRICT marks, size_t marks_count,
    const uint64_t *MOSS_RESTRICT keys, size_t keys_count, uint64_t walk, uint64_t budget);

/* The same step of a lent walk, which moves on in its place: afterwards it is the answer's walk. `walk` may not be NULL, nor lie
 * in a lent array. */
MOSS_CHECK MOSS_CALL moss_answer moss_int_set_walk_on(const uint8_t *MOSS_RESTRICT marks, size_t marks_count,
    const uint64_t *MOSS_RESTRICT keys, size_t keys_count, uint64_t *MOSS_RESTRICT walk, uint64_t budget);
/* end of declarations of int_set */

/* The byte map: marks, u64 values, and for each slot the offset (u16) and the length (u8) of its key in the arena, of at most
 * 32768 bytes. A key is lent as a pointer and a length, so it may not lie in the arena. Handles are as in the integer map. */

/* from the list: declarations of byte_map */
/* Makes an empty map of the lent arrays: every mark, word and arena byte becomes 0. MOSS_DONE. Refuses 1. */
MOSS_CHECK MOSS_CALL moss_answer moss_byte_map_make(uint8_t *MOSS_RESTRICT marks, size_t marks_count,
    uint16_t *MOSS_RESTRICT offsets, size_t offsets_count, uint8_t *MOSS_RESTRICT lengths, size_t lengths_count,
    uint64_t *MOSS_RESTRICT values, size_t values_count, uint8_t *MOSS_RESTRICT arena, size_t arena_count);

/* Empties a map, as make does. MOSS_DONE. Refuses 1. */
MOSS_CHECK MOSS_CALL moss_answer moss_byte_map_clear(uint8_t *MOSS_RESTRICT marks, size_t marks_count,
    uint16_t *MOSS_RESTRICT offsets, size_t offsets_count, uint8_t *MOSS_RESTRICT lengths, size_t lengths_count,
    uint64_t *MOSS_RESTRICT values, size_t values_count, uint8_t *MOSS_RESTRICT arena, size_t arena_count);

/* The number of slots. MOSS_COUNT with value. Refuses 1. */
MOSS_CHECK MOSS_CALL moss_answer moss_byte_map_capacity(const uint8_t *MOSS_RESTRICT marks, size_t marks_count,
    const uint16_t *MOSS_RESTRICT offsets, size_t offsets_count, const uint8_t *MOSS_RESTRICT lengths, size_t lengths_count,
    const uint64_t *MOSS_RESTRICT values, size_t values_count, const uint8_t *MOSS_RESTRICT arena, size_t arena_count);

/* The number of live slots, which on a sound table is that of its keys. MOSS_COUNT with value. Refuses 1, 5. */
MOSS_CHECK MOSS_CALL moss_answer moss_byte_map_len(const uint8_t *MOSS_RESTRICT marks, size_t marks_count,
    const uint16_t *MOSS_RESTRICT offsets, size_t offsets_count, const uint8_t *MOSS_RESTRICT lengths, size_t lengths_count,
    const uint64_t *MOSS_RESTRICT values, size_t values_count, const uint8_t *MOSS_RESTRICT arena, size_t arena_count);

/* Whether no slot is live. MOSS_EMPTY or MOSS_HOLDS. Refuses 1, 5. */
MOSS_CHECK MOSS_CALL moss_answer moss_byte_map_is_empty(const uint8_t *MOSS_RESTRICT marks, size_t marks_count,
    const uint16_t *MOSS_RESTRICT offsets, size_t offsets_count, const uint8_t *MOSS_RESTRICT lengths, size_t lengths_count,
    const uint64_t *MOSS_RESTRICT values, size_t values_count, const uint8_t *MOSS_RESTRICT arena, size_t arena_count);

/* Whether `keys` slots or more are not live, and `bytes` arena bytes or more not used: into a sound table any so many different
 * absent keys of allowed length, of so many bytes in all, then go. MOSS_ROOM. Refuses 1, 5, 7, 8. */
MOSS_CHECK MOSS_CALL moss_answer moss_byte_map_reserve(const uint8_t *MOSS_RESTRICT marks, size_t marks_count,
    const uint16_t *MOSS_RESTRICT offsets, size_t offsets_count, const uint8_t *MOSS_RESTRICT lengths, size_t lengths_count,
    const uint64_t *MOSS_RESTRICT values, size_t values_count, const uint8_t *MOSS_RESTRICT arena, size_t arena_count,
    uint64_t keys, uint64_t bytes);

/* The value of a key. MOSS_FOUND with value, slot and examined, or MOSS_ABSENT with examined. Refuses 1, 2, 5. */
MOSS_CHECK MOSS_CALL moss_answer moss_byte_map_get(const uint8_t *MOSS_RESTRICT marks, size_t marks_count,
    const uint16_t *MOSS_RESTRICT offsets, size_t offsets_count, const uint8_t *MOSS_RESTRICT lengths, size_t lengths_count,
    const uint64_t *MOSS_RESTRICT values, size_t values_count, const uint8_t *MOSS_RESTRICT arena, size_t arena_count,
    const uint8_t *MOSS_RESTRICT key, size_t key_length);

/* Whether a key is there. MOSS_PRESENT or MOSS_ABSENT with examined. Refuses 1, 2, 5. */
MOSS_CHECK MOSS_CALL moss_answer moss_byte_map_contains_key(const uint8_t *MOSS_RESTRICT marks, size_t marks_count,
    const uint16_t *MOSS_RESTRICT offsets, size_t offsets_count, const uint8_t *MOSS_RESTRICT lengths, size_t lengths_count,
    const uint64_t *MOSS_RESTRICT values, size_t values_count, const uint8_t *MOSS_RESTRICT arena, size_t arena_count,
    const uint8_t *MOSS_RESTRICT key, size_t key_length);

/* Gives a key its value. MOSS_FRESH with slot, offset and examined, or MOSS_REPLACED with the old value, slot and examined.
 * Refuses 1, 2, 5, 7, 8. */
MOSS_CHECK MOSS_CALL moss_answer moss_byte_map_insert(uint8_t *MOSS_RESTRICT marks, size_t marks_count,
    uint16_t *MOSS_RESTRICT offsets, size_t offsets_count, uint8_t *MOSS_RESTRICT lengths, size_t lengths_count,
    uint64_t *MOSS_RESTRICT values, size_t values_count, uint8_t *MOSS_RESTRICT arena, size_t arena_count,
    const uint8_t *MOSS_RESTRICT key, size_t key_length, uint64_t value);

/* Takes a key out, and closes the gap of its bytes. MOSS_REMOVED with its value, slot and examined, or MOSS_ABSENT with examined.
 * Refuses 1, 2, 5. */
MOSS_CHECK MOSS_CALL moss_answer moss_byte_map_remove(uint8_t *MOSS_RESTRICT marks, size_t marks_count,
    uint16_t *MOSS_RESTRICT offsets, size_t offsets_count, uint8_t *MOSS_RESTRICT lengths, size_t lengths_count,
    uint64_t *MOSS_RESTRICT values, size_t values_count, uint8_t *MOSS_RESTRICT arena, size_t arena_count,
    const uint8_t *MOSS_RESTRICT key, size_t key_length);

/* Makes the map of the to_ arrays equal to the other in every slot and byte; both have the same sizes. MOSS_DONE. Refuses 1. */
MOSS_CHECK MOSS_CALL moss_answer moss_byte_map_copy(uint8_t *MOSS_RESTRICT to_marks, size_t to_marks_count,
    uint16_t *MOSS_RESTRICT to_offsets, size_t to_offsets_count, uint8_t *MOSS_RESTRICT to_lengths, size_t to_lengths_count,
    uint64_t *MOSS_RESTRICT to_values, size_t to_values_count, uint8_t *MOSS_RESTRICT to_arena, size_t to_arena_count,
    const uint8_t *MOSS_RESTRICT marks, size_t marks_count, const uint16_t *MOSS_RESTRICT offsets, size_t offsets_count,
    const uint8_t *MOSS_RESTRICT lengths, size_t lengths_count, const uint64_t *MOSS_RESTRICT values, size_t values_count,
    const uint8_t *MOSS_RESTRICT arena, size_t arena_count);

/* Puts the right's pairs into the left (the arrays without right_), all or none; the right may have another slot count and arena.
 * MOSS_DONE. Refuses 1, 5, 7, 8. */
MOSS_CHECK MOSS_CALL moss_answer moss_byte_map_union_prefer_right(uint8_t *MOSS_RESTRICT marks, size_t marks_count,
    uint16_t *MOSS_RESTRICT offsets, size_t offsets_count, uint8_t *MOSS_RESTRICT lengths, size_t lengths_count,
    uint64_t *MOSS_RESTRICT values, size_t values_count, uint8_t *MOSS_RESTRICT arena, size_t arena_count,
    const uint8_t *MOSS_RESTRICT right_marks, size_t right_marks_count,
    const uint16_t *MOSS_RESTRICT right_offsets, size_t right_offsets_count,
    const uint8_t *MOSS_RESTRICT right_lengths, size_t right_lengths_count,
    const uint64_t *MOSS_RESTRICT right_values, size_t right_values_count,
    const uint8_t *MOSS_RESTRICT right_arena, size_t right_arena_count);

/* Where a key stands or would go. MOSS_OCCUPIED with slot, value and examined, or MOSS_VACANT with slot and examined. Refuses 1,
 * 2, 5, 7, 8. */
MOSS_CHECK MOSS_CALL moss_answer moss_byte_map_entry(const uint8_t *MOSS_RESTRICT marks, size_t marks_count,
    const uint16_t *MOSS_RESTRICT offsets, size_t offsets_count, const uint8_t *MOSS_RESTRICT lengths, size_t lengths_count,
    const uint64_t *MOSS_RESTRICT values, size_t values_count, const uint8_t *MOSS_RESTRICT arena, size_t arena_count,
    const uint8_t *MOSS_RESTRICT key, size_t key_length);

/* An occupied handle's value. MOSS_VALUE with value and slot. Refuses 1, 2, 5, 6. */
MOSS_CHECK MOSS_CALL moss_answer moss_byte_map_occupied_get(const uint8_t *MOSS_RESTRICT marks, size_t marks_count,
    const uint16_t *MOSS_RESTRICT offsets, size_t offsets_count, const uint8_t *MOSS_RESTRICT lengths, size_t lengths_count,
    const uint64_t *MOSS_RESTRICT values, size_t values_count, const uint8_t *MOSS_RESTRICT arena, size_t arena_count,
    uint64_t slot, const uint8_t *MOSS_RESTRICT key, size_t key_length);

/* Gives an occupied handle's slot another value. MOSS_WAS with the old value and slot. Refuses 1, 2, 5, 6. */
MOSS_CHECK MOSS_CALL moss_answer moss_byte_map_occupied_set(uint8_t *MOSS_RESTRICT marks, size_t marks_count,
    uint16_t *MOSS_RESTRICT offsets, size_t offsets_count, uint8_t *MOSS_RESTRICT lengths, size_t lengths_count,
    uint64_t *MOSS_RESTRICT values, size_t values_count, uint8_t *MOSS_RESTRICT arena, size_t arena_count, uint64_t slot,
    const uint8_t *MOSS_RESTRICT key, size_t key_length, uint64_t value);

/* Frees an occupied handle's slot, and closes the gap of its bytes. MOSS_REMOVED with value. Refuses 1, 2, 5, 6. */
MOSS_CHECK MOSS_CALL moss_answer moss_byte_map_occupied_remove(uint8_t *MOSS_RESTRICT marks, size_t marks_count,
    uint16_t *MOSS_RESTRICT offsets, size_t offsets_count, uint8_t *MOSS_RESTRICT lengths, size_t lengths_count,
    uint64_t *MOSS_RESTRICT values, size_t values_count, uint8_t *MOSS_RESTRICT arena, size_t arena_count, uint64_t slot,
    const uint8_t *MOSS_RESTRICT key, size_t key_length);

/* The same; the key is the one given. MOSS_REMOVED with value. Refuses 1, 2, 5, 6. */
MOSS_CHECK MOSS_CALL moss_answer moss_byte_map_occupied_remove_entry(uint8_t *MOSS_RESTRICT marks, size_t marks_count,
    uint16_t *MOSS_RESTRICT offsets, size_t offsets_count, uint8_t *MOSS_RESTRICT lengths, size_t lengths_count,
    uint64_t *MOSS_RESTRICT values, size_t values_count, uint8_t *MOSS_RESTRICT arena, size_t arena_count, uint64_t slot,
    const uint8_t *MOSS_RESTRICT key, size_t key_length);

/* Puts the key and a value into a vacant handle's slot. MOSS_NOW with value and slot. Refuses 1, 2, 5, 6. */
MOSS_CHECK MOSS_CALL moss_answer moss_byte_map_vacant_insert(uint8_t *MOSS_RESTRICT marks, size_t marks_count,
    uint16_t *MOSS_RESTRICT offsets, size_t offsets_count, uint8_t *MOSS_RESTRICT lengths, size_t lengths_count,
    uint64_t *MOSS_RESTRICT values, size_t values_count, uint8_t *MOSS_RESTRICT arena, size_t arena_count, uint64_t slot,
    const uint8_t *MOSS_RESTRICT key, size_t key_length, uint64_t value);

/* Keeps the value of an occupied handle, or puts `value` into a vacant one's slot. MOSS_NOW with the value now there and slot.
 * Refuses 1, 2, 5, 6. */
MOSS_CHECK MOSS_CALL moss_answer moss_byte_map_or_insert(uint8_t *MOSS_RESTRICT marks, size_t marks_count,
    uint16_t *MOSS_RESTRICT offsets, size_t offsets_count, uint8_t *MOSS_RESTRICT lengths, size_t lengths_count,
    uint64_t *MOSS_RESTRICT values, size_t values_count, uint8_t *MOSS_RESTRICT arena, size_t arena_count, uint64_t which,
    uint64_t slot, const uint8_t *MOSS_RESTRICT key, size_t key_length, uint64_t value);

/* Gives an occupied handle's slot the value, or puts it into a vacant one's slot. MOSS_NOW with value and slot. Refuses 1, 2, 5,
 * 6. */
MOSS_CHECK MOSS_CALL moss_answer moss_byte_map_insert_entry(uint8_t *MOSS_RESTRICT marks, size_t marks_count,
    uint16_t *MOSS_RESTRICT offsets, size_t offsets_count, uint8_t *MOSS_RESTRICT lengths, size_t lengths_count,
    uint64_t *MOSS_RESTRICT values, size_t values_count, uint8_t *MOSS_RESTRICT arena, size_t arena_count, uint64_t which,
    uint64_t slot, const uint8_t *MOSS_RESTRICT key, size_t key_length, uint64_t value);

/* Where a walk starts: 0. */
MOSS_CALL uint64_t moss_byte_map_walk_start(void);

/* One step of a walk over at most `budget` slots. MOSS_PAIR with offset, length, value, walk and examined, MOSS_NOTHING with walk
 * and examined, or MOSS_WALK_DONE with walk. Refuses 1, 3, 4, 5, with the walk as it came. */
MOSS_CHECK MOSS_CALL moss_answer moss_byte_map_step(const uint8_t *MOSS_RESTRICT marks, size_t marks_count,
    const uint16_t *MOSS_RESTRICT offsets, size_t offsets_count, const uint8_t *MOSS_RESTRICT lengths, size_t lengths_count,
    const uint64_t *MOSS_RESTRICT values, size_t values_count, const uint8_t *MOSS_RESTRICT arena, size_t arena_count,
    uint64_t walk, uint64_t budget);

/* The same step of a lent walk, which moves on in its place: afterwards it is the answer's walk. `walk` may not be NULL, nor lie
 * in a lent array. */
MOSS_CHECK MOSS_CALL moss_answer moss_byte_map_walk_on(const uint8_t *MOSS_RESTRICT marks, size_t marks_count,
    const uint16_t *MOSS_RESTRICT offsets, size_t offsets_count, const uint8_t *MOSS_RESTRICT lengths, size_t lengths_count,
    const uint64_t *MOSS_RESTRICT values, size_t values_count, const uint8_t *MOSS_RESTRICT arena, size_t arena_count,
    uint64_t *MOSS_RESTRICT walk, uint64_t budget);
/* end of declarations of byte_map */

/* The byte set: the same without values. */

/* from the list: declarations of byte_set */
/* Makes an empty set of the lent arrays: every mark, word and arena byte becomes 0. MOSS_DONE. Refuses 1. */
MOSS_CHECK MOSS_CALL moss_answer moss_byte_set_make(uint8_t *MOSS_RESTRICT marks, size_t marks_count,
    uint16_t *MOSS_RESTRICT offsets, size_t offsets_count, uint8_t *MOSS_RESTRICT lengths, size_t lengths_count,
    uint8_t *MOSS_RESTRICT arena, size_t arena_count);

/* Empties a set, as make does. MOSS_DONE. Refuses 1. */
MOSS_CHECK MOSS_CALL moss_answer moss_byte_set_clear(uint8_t *MOSS_RESTRICT marks, size_t marks_count,
    uint16_t *MOSS_RESTRICT offsets, size_t offsets_count, uint8_t *MOSS_RESTRICT lengths, size_t lengths_count,
    uint8_t *MOSS_RESTRICT arena, size_t arena_count);

/* The number of slots. MOSS_COUNT with value. Refuses 1. */
MOSS_CHECK MOSS_CALL moss_answer moss_byte_set_capacity(const uint8_t *MOSS_RESTRICT marks, size_t marks_count,
    const uint16_t *MOSS_RESTRICT offsets, size_t offsets_count, const uint8_t *MOSS_RESTRICT lengths, size_t lengths_count,
    const uint8_t *MOSS_RESTRICT arena, size_t arena_count);

/* The number of live slots, which on a sound table is that of its keys. MOSS_COUNT with value. Refuses 1, 5. */
MOSS_CHECK MOSS_CALL moss_answer moss_byte_set_len(const uint8_t *MOSS_RESTRICT marks, size_t marks_count,
    const uint16_t *MOSS_RESTRICT offsets, size_t offsets_count, const uint8_t *MOSS_RESTRICT lengths, size_t lengths_count,
    const uint8_t *MOSS_RESTRICT arena, size_t arena_count);

/* Whether no slot is live. MOSS_EMPTY or MOSS_HOLDS. Refuses 1, 5. */
MOSS_CHECK MOSS_CALL moss_answer moss_byte_set_is_empty(const uint8_t *MOSS_RESTRICT marks, size_t marks_count,
    const uint16_t *MOSS_RESTRICT offsets, size_t offsets_count, const uint8_t *MOSS_RESTRICT lengths, size_t lengths_count,
    const uint8_t *MOSS_RESTRICT arena, size_t arena_count);

/* Whether `keys` slots or more are not live, and `bytes` arena bytes or more not used: into a sound table any so many different
 * absent keys of allowed length, of so many bytes in all, then go. MOSS_ROOM. Refuses 1, 5, 7, 8. */
MOSS_CHECK MOSS_CALL moss_answer moss_byte_set_reserve(const uint8_t *MOSS_RESTRICT marks, size_t marks_count,
    const uint16_t *MOSS_RESTRICT offsets, size_t offsets_count, const uint8_t *MOSS_RESTRICT lengths, size_t lengths_count,
    const uint8_t *MOSS_RESTRICT arena, size_t arena_count, uint64_t keys, uint64_t bytes);

/* Where the key is stored. MOSS_FOUND with offset, length, slot and examined, or MOSS_ABSENT with examined. Refuses 1, 2, 5. */
MOSS_CHECK MOSS_CALL moss_answer moss_byte_set_get(const uint8_t *MOSS_RESTRICT marks, size_t marks_count,
    const uint16_t *MOSS_RESTRICT offsets, size_t offsets_count, const uint8_t *MOSS_RESTRICT lengths, size_t lengths_count,
    const uint8_t *MOSS_RESTRICT arena, size_t arena_count, const uint8_t *MOSS_RESTRICT key, size_t key_length);

/* Whether a key is there. MOSS_PRESENT or MOSS_ABSENT with examined. Refuses 1, 2, 5. */
MOSS_CHECK MOSS_CALL moss_answer moss_byte_set_contains(const uint8_t *MOSS_RESTRICT marks, size_t marks_count,
    const uint16_t *MOSS_RESTRICT offsets, size_t offsets_count, const uint8_t *MOSS_RESTRICT lengths, size_t lengths_count,
    const uint8_t *MOSS_RESTRICT arena, size_t arena_count, const uint8_t *MOSS_RESTRICT key, size_t key_length);

/* Puts a key in. MOSS_FRESH with slot, offset and examined, or MOSS_REPLACED with slot and examined where it was there already.
 * Refuses 1, 2, 5, 7, 8. */
MOSS_CHECK MOSS_CALL moss_answer moss_byte_set_insert(uint8_t *MOSS_RESTRICT marks, size_t marks_count,
    uint16_t *MOSS_RESTRICT offsets, size_t offsets_count, uint8_t *MOSS_RESTRICT lengths, size_t lengths_count,
    uint8_t *MOSS_RESTRICT arena, size_t arena_count, const uint8_t *MOSS_RESTRICT key, size_t key_length);

/* Takes a key out, and closes the gap of its bytes. MOSS_REMOVED with slot and examined, or MOSS_ABSENT with examined. Refuses 1,
 * 2, 5. */
MOSS_CHECK MOSS_CALL moss_answer moss_byte_set_remove(uint8_t *MOSS_RESTRICT marks, size_t marks_count,
    uint16_t *MOSS_RESTRICT offsets, size_t offsets_count, uint8_t *MOSS_RESTRICT lengths, size_t lengths_count,
    uint8_t *MOSS_RESTRICT arena, size_t arena_count, const uint8_t *MOSS_RESTRICT key, size_t key_length);

/* Makes the set of the to_ arrays equal to the other in every slot and byte; both have the same sizes. MOSS_DONE. Refuses 1. */
MOSS_CHECK MOSS_CALL moss_answer moss_byte_set_copy(uint8_t *MOSS_RESTRICT to_marks, size_t to_marks_count,
    uint16_t *MOSS_RESTRICT to_offsets, size_t to_offsets_count, uint8_t *MOSS_RESTRICT to_lengths, size_t to_lengths_count,
    uint8_t *MOSS_RESTRICT to_arena, size_t to_arena_count, const uint8_t *MOSS_RESTRICT marks, size_t marks_count,
    const uint16_t *MOSS_RESTRICT offsets, size_t offsets_count, const uint8_t *MOSS_RESTRICT lengths, size_t lengths_count,
    const uint8_t *MOSS_RESTRICT arena, size_t arena_count);

/* Where a walk starts: 0. */
MOSS_CALL uint64_t moss_byte_set_walk_start(void);

/* One step of a walk over at most `budget` slots. MOSS_PAIR with offset, length, walk and examined, MOSS_NOTHING with walk and
 * examined, or MOSS_WALK_DONE with walk. Refuses 1, 3, 4, 5, with the walk as it came. */
MOSS_CHECK MOSS_CALL moss_answer moss_byte_set_step(const uint8_t *MOSS_RESTRICT marks, size_t marks_count,
    const uint16_t *MOSS_RESTRICT offsets, size_t offsets_count, const uint8_t *MOSS_RESTRICT lengths, size_t lengths_count,
    const uint8_t *MOSS_RESTRICT arena, size_t arena_count, uint64_t walk, uint64_t budget);

/* The same step of a lent walk, which moves on in its place: afterwards it is the answer's walk. `walk` may not be NULL, nor lie
 * in a lent array. */
MOSS_CHECK MOSS_CALL moss_answer moss_byte_set_walk_on(const uint8_t *MOSS_RESTRICT marks, size_t marks_count,
    const uint16_t *MOSS_RESTRICT offsets, size_t offsets_count, const uint8_t *MOSS_RESTRICT lengths, size_t lengths_count,
    const uint8_t *MOSS_RESTRICT arena, size_t arena_count, uint64_t *MOSS_RESTRICT walk, uint64_t budget);
/* end of declarations of byte_set */

/* Tables as structs.
 *
 * A struct bundles a table's lent arrays. MOSS_INT_MAP(name, S) declares one with its static storage; it is empty, as if made. The
 * moss_im_ calls take such a struct and do what the moss_int_map_ call of that name does; moss_is_, moss_bm_ and moss_bs_ are
 * those of integer sets, byte maps and byte sets. A view is the same of arrays that are only read, as those of a table in flash:
 * moss_imv_, moss_isv_, moss_bmv_ and moss_bsv_. These are not proved: they only pass the struct's fields on. */

/* from the list: structs */
/* An integer map's lent arrays; and a view of such that are only read, as in flash. */
typedef struct moss_int_map {
    uint8_t *marks;
    uint64_t *keys;
    uint64_t *values;
    size_t slots;
} moss_int_map;
typedef struct moss_int_map_view {
    const uint8_t *marks;
    const uint64_t *keys;
    const uint64_t *values;
    size_t slots;
} moss_int_map_view;

/* An integer set's lent arrays; and a view of such that are only read, as in flash. */
typedef struct moss_int_set {
    uint8_t *marks;
    uint64_t *keys;
    size_t slots;
} moss_int_set;
typedef struct moss_int_set_view {
    const uint8_t *marks;
    const uint64_t *keys;
    size_t slots;
} moss_int_set_view;

/* A byte map's lent arrays; and a view of such that are only read, as in flash. */
typedef struct moss_byte_map {
    uint8_t *marks;
    uint16_t *offsets;
    uint8_t *lengths;
    uint64_t *values;
    uint8_t *arena;
    size_t slots;
    size_t arena_size;
} moss_byte_map;
typedef struct moss_byte_map_view {
    const uint8_t *marks;
    const uint16_t *offsets;
    const uint8_t *lengths;
    const uint64_t *values;
    const uint8_t *arena;
    size_t slots;
    size_t arena_size;
} moss_byte_map_view;

/* A byte set's lent arrays; and a view of such that are only read, as in flash. */
typedef struct moss_byte_set {
    uint8_t *marks;
    uint16_t *offsets;
    uint8_t *lengths;
    uint8_t *arena;
    size_t slots;
    size_t arena_size;
} moss_byte_set;
typedef struct moss_byte_set_view {
    const uint8_t *marks;
    const uint16_t *offsets;
    const uint8_t *lengths;
    const uint8_t *arena;
    size_t slots;
    size_t arena_size;
} moss_byte_set_view;
/* end of structs */

/* A number of slots, 1 to 4096, and of arena bytes, at most 32768: any other does not compile. */
#define MOSS_SLOTS(S) ((S) * sizeof(char[((S) >= 1 && (S) <= 4096) ? 1 : -1]))
#define MOSS_ARENA(A) (((A) + ((A) == 0)) * sizeof(char[((A) >= 0 && (A) <= 32768) ? 1 : -1]))

/* A table `name` of S slots, and A arena bytes, which may be 0, at file scope or in a function. Storage that is all zeros is a made
 * table. MOSS_INT_MAP_MEMBERS(name, S) declares the arrays as members of a struct, in which an arena has at least 1 byte; then
 * moss_int_map t = MOSS_INT_MAP_IN(object, name) is the table of that object. */
/* from the list: storage */
#define MOSS_INT_MAP(name, S) \
    static uint8_t name##_marks[MOSS_SLOTS(S)]; \
    static uint64_t name##_keys[MOSS_SLOTS(S)]; \
    static uint64_t name##_values[MOSS_SLOTS(S)]; \
    static const moss_int_map name = {name##_marks, name##_keys, name##_values, S}
#define MOSS_INT_MAP_MEMBERS(name, S) \
    uint8_t name##_marks[MOSS_SLOTS(S)]; \
    uint64_t name##_keys[MOSS_SLOTS(S)]; \
    uint64_t name##_values[MOSS_SLOTS(S)]
#define MOSS_INT_MAP_IN(object, name) \
    {(object).name##_marks, (object).name##_keys, (object).name##_values, sizeof((object).name##_marks)}

#define MOSS_INT_SET(name, S) \
    static uint8_t name##_marks[MOSS_SLOTS(S)]; \
    static uint64_t name##_keys[MOSS_SLOTS(S)]; \
    static const moss_int_set name = {name##_marks, name##_keys, S}
#define MOSS_INT_SET_MEMBERS(name, S) \
    uint8_t name##_marks[MOSS_SLOTS(S)]; \
    uint64_t name##_keys[MOSS_SLOTS(S)]
#define MOSS_INT_SET_IN(object, name) \
    {(object).name##_marks, (object).name##_keys, sizeof((object).name##_marks)}

#define MOSS_BYTE_MAP(name, S, A) \
    static uint8_t name##_marks[MOSS_SLOTS(S)]; \
    static uint16_t name##_offsets[MOSS_SLOTS(S)]; \
    static uint8_t name##_lengths[MOSS_SLOTS(S)]; \
    static uint64_t name##_values[MOSS_SLOTS(S)]; \
    static uint8_t name##_arena[MOSS_ARENA(A)]; \
    static const moss_byte_map name = {name##_marks, name##_offsets, name##_lengths, name##_values, name##_arena, S, A}
#define MOSS_BYTE_MAP_MEMBERS(name, S, A) \
    uint8_t name##_marks[MOSS_SLOTS(S)]; \
    uint16_t name##_offsets[MOSS_SLOTS(S)]; \
    uint8_t name##_lengths[MOSS_SLOTS(S)]; \
    uint64_t name##_values[MOSS_SLOTS(S)]; \
    uint8_t name##_arena[MOSS_ARENA(A)]
#define MOSS_BYTE_MAP_IN(object, name) \
    {(object).name##_marks, (object).name##_offsets, (object).name##_lengths, (object).name##_values, (object).name##_arena, \
        sizeof((object).name##_marks), sizeof((object).name##_arena)}

#define MOSS_BYTE_SET(name, S, A) \
    static uint8_t name##_marks[MOSS_SLOTS(S)]; \
    static uint16_t name##_offsets[MOSS_SLOTS(S)]; \
    static uint8_t name##_lengths[MOSS_SLOTS(S)]; \
    static uint8_t name##_arena[MOSS_ARENA(A)]; \
    static const moss_byte_set name = {name##_marks, name##_offsets, name##_lengths, name##_arena, S, A}
#define MOSS_BYTE_SET_MEMBERS(name, S, A) \
    uint8_t name##_marks[MOSS_SLOTS(S)]; \
    uint16_t name##_offsets[MOSS_SLOTS(S)]; \
    uint8_t name##_lengths[MOSS_SLOTS(S)]; \
    uint8_t name##_arena[MOSS_ARENA(A)]
#define MOSS_BYTE_SET_IN(object, name) \
    {(object).name##_marks, (object).name##_offsets, (object).name##_lengths, (object).name##_arena, sizeof((object).name##_marks), \
        sizeof((object).name##_arena)}
/* end of storage */

/* A struct's arrays as arguments. */
/* from the list: lending */
#define MOSS_LENT_INT_MAP(t) (t)->marks, (t)->slots, (t)->keys, (t)->slots, (t)->values, (t)->slots
#define MOSS_LENT_INT_SET(t) (t)->marks, (t)->slots, (t)->keys, (t)->slots
#define MOSS_LENT_BYTE_MAP(t) \
    (t)->marks, (t)->slots, (t)->offsets, (t)->slots, (t)->lengths, (t)->slots, (t)->values, (t)->slots, (t)->arena, (t)->arena_size
#define MOSS_LENT_BYTE_SET(t) \
    (t)->marks, (t)->slots, (t)->offsets, (t)->slots, (t)->lengths, (t)->slots, (t)->arena, (t)->arena_size
/* end of lending */

/* A walk from its start: the body runs for each pair, in `step`, a moss_answer that the caller declares. Behind the loop step.refusal is
 * 0 where the walk has ended, and else says why it broke off. `kind` is im, is, bm or bs, or imv, isv, bmv or bsv for a view. */
#define MOSS_WALK(kind, table, step) for ((step).walk = 0; moss_##kind##_next((table), &(step));)

/* from the list: calls of int_map */
/* The calls of an integer map's struct. */

MOSS_CHECK static inline moss_answer moss_im_make(const moss_int_map *t)
{
    return moss_int_map_make(MOSS_LENT_INT_MAP(t));
}

MOSS_CHECK static inline moss_answer moss_im_clear(const moss_int_map *t)
{
    return moss_int_map_clear(MOSS_LENT_INT_MAP(t));
}

MOSS_CHECK static inline moss_answer moss_im_capacity(const moss_int_map *t)
{
    return moss_int_map_capacity(MOSS_LENT_INT_MAP(t));
}

MOSS_CHECK static inline moss_answer moss_im_len(const moss_int_map *t)
{
    return moss_int_map_len(MOSS_LENT_INT_MAP(t));
}

MOSS_CHECK static inline moss_answer moss_im_is_empty(const moss_int_map *t)
{
    return moss_int_map_is_empty(MOSS_LENT_INT_MAP(t));
}

MOSS_CHECK static inline moss_answer moss_im_reserve(const moss_int_map *t, uint64_t asked)
{
    return moss_int_map_reserve(MOSS_LENT_INT_MAP(t), asked);
}

MOSS_CHECK static inline moss_answer moss_im_get(const moss_int_map *t, uint64_t key)
{
    return moss_int_map_get(MOSS_LENT_INT_MAP(t), key);
}

MOSS_CHECK static inline moss_answer moss_im_contains_key(const moss_int_map *t, uint64_t key)
{
    return moss_int_map_contains_key(MOSS_LENT_INT_MAP(t), key);
}

MOSS_CHECK static inline moss_answer moss_im_insert(const moss_int_map *t, uint64_t key, uint64_t value)
{
    return moss_int_map_insert(MOSS_LENT_INT_MAP(t), key, value);
}

MOSS_CHECK static inline moss_answer moss_im_remove(const moss_int_map *t, uint64_t key)
{
    return moss_int_map_remove(MOSS_LENT_INT_MAP(t), key);
}

MOSS_CHECK static inline moss_answer moss_im_copy(const moss_int_map *t, const moss_int_map *from)
{
    return moss_int_map_copy(MOSS_LENT_INT_MAP(t), MOSS_LENT_INT_MAP(from));
}

MOSS_CHECK static inline moss_answer moss_im_union_prefer_right(const moss_int_map *t, const moss_int_map *right)
{
    return moss_int_map_union_prefer_right(MOSS_LENT_INT_MAP(t), MOSS_LENT_INT_MAP(right));
}

MOSS_CHECK static inline moss_answer moss_im_entry(const moss_int_map *t, uint64_t key)
{
    return moss_int_map_entry(MOSS_LENT_INT_MAP(t), key);
}

MOSS_CHECK static inline moss_answer moss_im_occupied_get(const moss_int_map *t, uint64_t slot, uint64_t key)
{
    return moss_int_map_occupied_get(MOSS_LENT_INT_MAP(t), slot, key);
}

MOSS_CHECK static inline moss_answer moss_im_occupied_set(const moss_int_map *t, uint64_t slot, uint64_t key, uint64_t value)
{
    return moss_int_map_occupied_set(MOSS_LENT_INT_MAP(t), slot, key, value);
}

MOSS_CHECK static inline moss_answer moss_im_occupied_remove(const moss_int_map *t, uint64_t slot, uint64_t key)
{
    return moss_int_map_occupied_remove(MOSS_LENT_INT_MAP(t), slot, key);
}

MOSS_CHECK static inline moss_answer moss_im_occupied_remove_entry(const moss_int_map *t, uint64_t slot, uint64_t key)
{
    return moss_int_map_occupied_remove_entry(MOSS_LENT_INT_MAP(t), slot, key);
}

MOSS_CHECK static inline moss_answer moss_im_vacant_insert(const moss_int_map *t, uint64_t slot, uint64_t key, uint64_t value)
{
    return moss_int_map_vacant_insert(MOSS_LENT_INT_MAP(t), slot, key, value);
}

MOSS_CHECK static inline moss_answer moss_im_or_insert(const moss_int_map *t, uint64_t which, uint64_t slot, uint64_t key,
    uint64_t value)
{
    return moss_int_map_or_insert(MOSS_LENT_INT_MAP(t), which, slot, key, value);
}

MOSS_CHECK static inline moss_answer moss_im_insert_entry(const moss_int_map *t, uint64_t which, uint64_t slot, uint64_t key,
    uint64_t value)
{
    return moss_int_map_insert_entry(MOSS_LENT_INT_MAP(t), which, slot, key, value);
}

MOSS_CHECK static inline moss_answer moss_im_step(const moss_int_map *t, uint64_t walk, uint64_t budget)
{
    return moss_int_map_step(MOSS_LENT_INT_MAP(t), walk, budget);
}

MOSS_CHECK static inline moss_answer moss_im_walk_on(const moss_int_map *t, uint64_t *walk, uint64_t budget)
{
    return moss_int_map_walk_on(MOSS_LENT_INT_MAP(t), walk, budget);
}

/* Those that only read it, of a view. */

MOSS_CHECK static inline moss_answer moss_imv_capacity(const moss_int_map_view *t)
{
    return moss_int_map_capacity(MOSS_LENT_INT_MAP(t));
}

MOSS_CHECK static inline moss_answer moss_imv_len(const moss_int_map_view *t)
{
    return moss_int_map_len(MOSS_LENT_INT_MAP(t));
}

MOSS_CHECK static inline moss_answer moss_imv_is_empty(const moss_int_map_view *t)
{
    return moss_int_map_is_empty(MOSS_LENT_INT_MAP(t));
}

MOSS_CHECK static inline moss_answer moss_imv_reserve(const moss_int_map_view *t, uint64_t asked)
{
    return moss_int_map_reserve(MOSS_LENT_INT_MAP(t), asked);
}

MOSS_CHECK static inline moss_answer moss_imv_get(const moss_int_map_view *t, uint64_t key)
{
    return moss_int_map_get(MOSS_LENT_INT_MAP(t), key);
}

MOSS_CHECK static inline moss_answer moss_imv_contains_key(const moss_int_map_view *t, uint64_t key)
{
    return moss_int_map_contains_key(MOSS_LENT_INT_MAP(t), key);
}

MOSS_CHECK static inline moss_answer moss_im_copy_view(const moss_int_map *t, const moss_int_map_view *from)
{
    return moss_int_map_copy(MOSS_LENT_INT_MAP(t), MOSS_LENT_INT_MAP(from));
}

MOSS_CHECK static inline moss_answer moss_im_union_prefer_right_view(const moss_int_map *t, const moss_int_map_view *right)
{
    return moss_int_map_union_prefer_right(MOSS_LENT_INT_MAP(t), MOSS_LENT_INT_MAP(right));
}

MOSS_CHECK static inline moss_answer moss_imv_entry(const moss_int_map_view *t, uint64_t key)
{
    return moss_int_map_entry(MOSS_LENT_INT_MAP(t), key);
}

MOSS_CHECK static inline moss_answer moss_imv_occupied_get(const moss_int_map_view *t, uint64_t slot, uint64_t key)
{
    return moss_int_map_occupied_get(MOSS_LENT_INT_MAP(t), slot, key);
}

MOSS_CHECK static inline moss_answer moss_imv_step(const moss_int_map_view *t, uint64_t walk, uint64_t budget)
{
    return moss_int_map_step(MOSS_LENT_INT_MAP(t), walk, budget);
}

MOSS_CHECK static inline moss_answer moss_imv_walk_on(const moss_int_map_view *t, uint64_t *walk, uint64_t budget)
{
    return moss_int_map_walk_on(MOSS_LENT_INT_MAP(t), walk, budget);
}

/* The next pair of a walk, if there is one. */

MOSS_CHECK static inline int moss_im_next(const moss_int_map *t, moss_answer *step)
{
    do {
        *step = moss_im_step(t, step->walk, t->slots);
    } while (step->which == MOSS_NOTHING);
    return step->which == MOSS_PAIR;
}

MOSS_CHECK static inline int moss_imv_next(const moss_int_map_view *t, moss_answer *step)
{
    do {
        *step = moss_imv_step(t, step->walk, t->slots);
    } while (step->which == MOSS_NOTHING);
    return step->which == MOSS_PAIR;
}
/* end of calls of int_map */

/* from the list: calls of int_set */
/* The calls of an integer set's struct. */

MOSS_CHECK static inline moss_answer moss_is_make(const moss_int_set *t)
{
    return moss_int_set_make(MOSS_LENT_INT_SET(t));
}

MOSS_CHECK static inline moss_answer moss_is_clear(const moss_int_set *t)
{
    return moss_int_set_clear(MOSS_LENT_INT_SET(t));
}

MOSS_CHECK static inline moss_answer moss_is_capacity(const moss_int_set *t)
{
    return moss_int_set_capacity(MOSS_LENT_INT_SET(t));
}

MOSS_CHECK static inline moss_answer moss_is_len(const moss_int_set *t)
{
    return moss_int_set_len(MOSS_LENT_INT_SET(t));
}

MOSS_CHECK static inline moss_answer moss_is_is_empty(const moss_int_set *t)
{
    return moss_int_set_is_empty(MOSS_LENT_INT_SET(t));
}

MOSS_CHECK static inline moss_answer moss_is_reserve(const moss_int_set *t, uint64_t asked)
{
    return moss_int_set_reserve(MOSS_LENT_INT_SET(t), asked);
}

MOSS_CHECK static inline moss_answer moss_is_get(const moss_int_set *t, uint64_t key)
{
    return moss_int_set_get(MOSS_LENT_INT_SET(t), key);
}

MOSS_CHECK static inline moss_answer moss_is_contains(const moss_int_set *t, uint64_t key)
{
    return moss_int_set_contains(MOSS_LENT_INT_SET(t), key);
}

MOSS_CHECK static inline moss_answer moss_is_insert(const moss_int_set *t, uint64_t key)
{
    return moss_int_set_insert(MOSS_LENT_INT_SET(t), key);
}

MOSS_CHECK static inline moss_answer moss_is_remove(const moss_int_set *t, uint64_t key)
{
    return moss_int_set_remove(MOSS_LENT_INT_SET(t), key);
}

MOSS_CHECK static inline moss_answer moss_is_copy(const moss_int_set *t, const moss_int_set *from)
{
    return moss_int_set_copy(MOSS_LENT_INT_SET(t), MOSS_LENT_INT_SET(from));
}

MOSS_CHECK static inline moss_answer moss_is_step(const moss_int_set *t, uint64_t walk, uint64_t budget)
{
    return moss_int_set_step(MOSS_LENT_INT_SET(t), walk, budget);
}

MOSS_CHECK static inline moss_answer moss_is_walk_on(const moss_int_set *t, uint64_t *walk, uint64_t budget)
{
    return moss_int_set_walk_on(MOSS_LENT_INT_SET(t), walk, budget);
}

/* Those that only read it, of a view. */

MOSS_CHECK static inline moss_answer moss_isv_capacity(const moss_int_set_view *t)
{
    return moss_int_set_capacity(MOSS_LENT_INT_SET(t));
}

MOSS_CHECK static inline moss_answer moss_isv_len(const moss_int_set_view *t)
{
    return moss_int_set_len(MOSS_LENT_INT_SET(t));
}

MOSS_CHECK static inline moss_answer moss_isv_is_empty(const moss_int_set_view *t)
{
    return moss_int_set_is_empty(MOSS_LENT_INT_SET(t));
}

MOSS_CHECK static inline moss_answer moss_isv_reserve(const moss_int_set_view *t, uint64_t asked)
{
    return moss_int_set_reserve(MOSS_LENT_INT_SET(t), asked);
}

MOSS_CHECK static inline moss_answer moss_isv_get(const moss_int_set_view *t, uint64_t key)
{
    return moss_int_set_get(MOSS_LENT_INT_SET(t), key);
}

MOSS_CHECK static inline moss_answer moss_isv_contains(const moss_int_set_view *t, uint64_t key)
{
    return moss_int_set_contains(MOSS_LENT_INT_SET(t), key);
}

MOSS_CHECK static inline moss_answer moss_is_copy_view(const moss_int_set *t, const moss_int_set_view *from)
{
    return moss_int_set_copy(MOSS_LENT_INT_SET(t), MOSS_LENT_INT_SET(from));
}

MOSS_CHECK static inline moss_answer moss_isv_step(const moss_int_set_view *t, uint64_t walk, uint64_t budget)
{
    return moss_int_set_step(MOSS_LENT_INT_SET(t), walk, budget);
}

MOSS_CHECK static inline moss_answer moss_isv_walk_on(const moss_int_set_view *t, uint64_t *walk, uint64_t budget)
{
    return moss_int_set_walk_on(MOSS_LENT_INT_SET(t), walk, budget);
}

/* The next pair of a walk, if there is one. */

MOSS_CHECK static inline int moss_is_next(const moss_int_set *t, moss_answer *step)
{
    do {
        *step = moss_is_step(t, step->walk, t->slots);
    } while (step->which == MOSS_NOTHING);
    return step->which == MOSS_PAIR;
}

MOSS_CHECK static inline int moss_isv_next(const moss_int_set_view *t, moss_answer *step)
{
    do {
        *step = moss_isv_step(t, step->walk, t->slots);
    } while (step->which == MOSS_NOTHING);
    return step->which == MOSS_PAIR;
}
/* end of calls of int_set */

/* from the list: calls of byte_map */
/* The calls of a byte map's struct. */

MOSS_CHECK static inline moss_answer moss_bm_make(const moss_byte_map *t)
{
    return moss_byte_map_make(MOSS_LENT_BYTE_MAP(t));
}

MOSS_CHECK static inline moss_answer moss_bm_clear(const moss_byte_map *t)
{
    return moss_byte_map_clear(MOSS_LENT_BYTE_MAP(t));
}

MOSS_CHECK static inline moss_answer moss_bm_capacity(const moss_byte_map *t)
{
    return moss_byte_map_capacity(MOSS_LENT_BYTE_MAP(t));
}

MOSS_CHECK static inline moss_answer moss_bm_len(const moss_byte_map *t)
{
    return moss_byte_map_len(MOSS_LENT_BYTE_MAP(t));
}

MOSS_CHECK static inline moss_answer moss_bm_is_empty(const moss_byte_map *t)
{
    return moss_byte_map_is_empty(MOSS_LENT_BYTE_MAP(t));
}

MOSS_CHECK static inline moss_answer moss_bm_reserve(const moss_byte_map *t, uint64_t keys, uint64_t bytes)
{
    return moss_byte_map_reserve(MOSS_LENT_BYTE_MAP(t), keys, bytes);
}

MOSS_CHECK static inline moss_answer moss_bm_get(const moss_byte_map *t, const uint8_t *key, size_t key_length)
{
    return moss_byte_map_get(MOSS_LENT_BYTE_MAP(t), key, key_length);
}

MOSS_CHECK static inline moss_answer moss_bm_contains_key(const moss_byte_map *t, const uint8_t *key, size_t key_length)
{
    return moss_byte_map_contains_key(MOSS_LENT_BYTE_MAP(t), key, key_length);
}

MOSS_CHECK static inline moss_answer moss_bm_insert(const moss_byte_map *t, const uint8_t *key, size_t key_length, uint64_t value)
{
    return moss_byte_map_insert(MOSS_LENT_BYTE_MAP(t), key, key_length, value);
}

MOSS_CHECK static inline moss_answer moss_bm_remove(const moss_byte_map *t, const uint8_t *key, size_t key_length)
{
    return moss_byte_map_remove(MOSS_LENT_BYTE_MAP(t), key, key_length);
}

MOSS_CHECK static inline moss_answer moss_bm_copy(const moss_byte_map *t, const moss_byte_map *from)
{
    return moss_byte_map_copy(MOSS_LENT_BYTE_MAP(t), MOSS_LENT_BYTE_MAP(from));
}

MOSS_CHECK static inline moss_answer moss_bm_union_prefer_right(const moss_byte_map *t, const moss_byte_map *right)
{
    return moss_byte_map_union_prefer_right(MOSS_LENT_BYTE_MAP(t), MOSS_LENT_BYTE_MAP(right));
}

MOSS_CHECK static inline moss_answer moss_bm_entry(const moss_byte_map *t, const uint8_t *key, size_t key_length)
{
    return moss_byte_map_entry(MOSS_LENT_BYTE_MAP(t), key, key_length);
}

MOSS_CHECK static inline moss_answer moss_bm_occupied_get(const moss_byte_map *t, uint64_t slot,
    const uint8_t *key, size_t key_length)
{
    return moss_byte_map_occupied_get(MOSS_LENT_BYTE_MAP(t), slot, key, key_length);
}

MOSS_CHECK static inline moss_answer moss_bm_occupied_set(const moss_byte_map *t, uint64_t slot,
    const uint8_t *key, size_t key_length, uint64_t value)
{
    return moss_byte_map_occupied_set(MOSS_LENT_BYTE_MAP(t), slot, key, key_length, value);
}

MOSS_CHECK static inline moss_answer moss_bm_occupied_remove(const moss_byte_map *t, uint64_t slot,
    const uint8_t *key, size_t key_length)
{
    return moss_byte_map_occupied_remove(MOSS_LENT_BYTE_MAP(t), slot, key, key_length);
}

MOSS_CHECK static inline moss_answer moss_bm_occupied_remove_entry(const moss_byte_map *t, uint64_t slot,
    const uint8_t *key, size_t key_length)
{
    return moss_byte_map_occupied_remove_entry(MOSS_LENT_BYTE_MAP(t), slot, key, key_length);
}

MOSS_CHECK static inline moss_answer moss_bm_vacant_insert(const moss_byte_map *t, uint64_t slot,
    const uint8_t *key, size_t key_length, uint64_t value)
{
    return moss_byte_map_vacant_insert(MOSS_LENT_BYTE_MAP(t), slot, key, key_length, value);
}

MOSS_CHECK static inline moss_answer moss_bm_or_insert(const moss_byte_map *t, uint64_t which, uint64_t slot,
    const uint8_t *key, size_t key_length, uint64_t value)
{
    return moss_byte_map_or_insert(MOSS_LENT_BYTE_MAP(t), which, slot, key, key_length, value);
}

MOSS_CHECK static inline moss_answer moss_bm_insert_entry(const moss_byte_map *t, uint64_t which, uint64_t slot,
    const uint8_t *key, size_t key_length, uint64_t value)
{
    return moss_byte_map_insert_entry(MOSS_LENT_BYTE_MAP(t), which, slot, key, key_length, value);
}

MOSS_CHECK static inline moss_answer moss_bm_step(const moss_byte_map *t, uint64_t walk, uint64_t budget)
{
    return moss_byte_map_step(MOSS_LENT_BYTE_MAP(t), walk, budget);
}

MOSS_CHECK static inline moss_answer moss_bm_walk_on(const moss_byte_map *t, uint64_t *walk, uint64_t budget)
{
    return moss_byte_map_walk_on(MOSS_LENT_BYTE_MAP(t), walk, budget);
}

/* Those that only read it, of a view. */

MOSS_CHECK static inline moss_answer moss_bmv_capacity(const moss_byte_map_view *t)
{
    return moss_byte_map_capacity(MOSS_LENT_BYTE_MAP(t));
}

MOSS_CHECK static inline moss_answer moss_bmv_len(const moss_byte_map_view *t)
{
    return moss_byte_map_len(MOSS_LENT_BYTE_MAP(t));
}

MOSS_CHECK static inline moss_answer moss_bmv_is_empty(const moss_byte_map_view *t)
{
    return moss_byte_map_is_empty(MOSS_LENT_BYTE_MAP(t));
}

MOSS_CHECK static inline moss_answer moss_bmv_reserve(const moss_byte_map_view *t, uint64_t keys, uint64_t bytes)
{
    return moss_byte_map_reserve(MOSS_LENT_BYTE_MAP(t), keys, bytes);
}

MOSS_CHECK static inline moss_answer moss_bmv_get(const moss_byte_map_view *t, const uint8_t *key, size_t key_length)
{
    return moss_byte_map_get(MOSS_LENT_BYTE_MAP(t), key, key_length);
}

MOSS_CHECK static inline moss_answer moss_bmv_contains_key(const moss_byte_map_view *t, const uint8_t *key, size_t key_length)
{
    return moss_byte_map_contains_key(MOSS_LENT_BYTE_MAP(t), key, key_length);
}

MOSS_CHECK static inline moss_answer moss_bm_copy_view(const moss_byte_map *t, const moss_byte_map_view *from)
{
    return moss_byte_map_copy(MOSS_LENT_BYTE_MAP(t), MOSS_LENT_BYTE_MAP(from));
}

MOSS_CHECK static inline moss_answer moss_bm_union_prefer_right_view(const moss_byte_map *t, const moss_byte_map_view *right)
{
    return moss_byte_map_union_prefer_right(MOSS_LENT_BYTE_MAP(t), MOSS_LENT_BYTE_MAP(right));
}

MOSS_CHECK static inline moss_answer moss_bmv_entry(const moss_byte_map_view *t, const uint8_t *key, size_t key_length)
{
    return moss_byte_map_entry(MOSS_LENT_BYTE_MAP(t), key, key_length);
}

MOSS_CHECK static inline moss_answer moss_bmv_occupied_get(const moss_byte_map_view *t, uint64_t slot,
    const uint8_t *key, size_t key_length)
{
    return moss_byte_map_occupied_get(MOSS_LENT_BYTE_MAP(t), slot, key, key_length);
}

MOSS_CHECK static inline moss_answer moss_bmv_step(const moss_byte_map_view *t, uint64_t walk, uint64_t budget)
{
    return moss_byte_map_step(MOSS_LENT_BYTE_MAP(t), walk, budget);
}

MOSS_CHECK static inline moss_answer moss_bmv_walk_on(const moss_byte_map_view *t, uint64_t *walk, uint64_t budget)
{
    return moss_byte_map_walk_on(MOSS_LENT_BYTE_MAP(t), walk, budget);
}

/* The next pair of a walk, if there is one. */

MOSS_CHECK static inline int moss_bm_next(const moss_byte_map *t, moss_answer *step)
{
    do {
        *step = moss_bm_step(t, step->walk, t->slots);
    } while (step->which == MOSS_NOTHING);
    return step->which == MOSS_PAIR;
}

MOSS_CHECK static inline int moss_bmv_next(const moss_byte_map_view *t, moss_answer *step)
{
    do {
        *step = moss_bmv_step(t, step->walk, t->slots);
    } while (step->which == MOSS_NOTHING);
    return step->which == MOSS_PAIR;
}
/* end of calls of byte_map */

/* from the list: calls of byte_set */
/* The calls of a byte set's struct. */

MOSS_CHECK static inline moss_answer moss_bs_make(const moss_byte_set *t)
{
    return moss_byte_set_make(MOSS_LENT_BYTE_SET(t));
}

MOSS_CHECK static inline moss_answer moss_bs_clear(const moss_byte_set *t)
{
    return moss_byte_set_clear(MOSS_LENT_BYTE_SET(t));
}

MOSS_CHECK static inline moss_answer moss_bs_capacity(const moss_byte_set *t)
{
    return moss_byte_set_capacity(MOSS_LENT_BYTE_SET(t));
}

MOSS_CHECK static inline moss_answer moss_bs_len(const moss_byte_set *t)
{
    return moss_byte_set_len(MOSS_LENT_BYTE_SET(t));
}

MOSS_CHECK static inline moss_answer moss_bs_is_empty(const moss_byte_set *t)
{
    return moss_byte_set_is_empty(MOSS_LENT_BYTE_SET(t));
}

MOSS_CHECK static inline moss_answer moss_bs_reserve(const moss_byte_set *t, uint64_t keys, uint64_t bytes)
{
    return moss_byte_set_reserve(MOSS_LENT_BYTE_SET(t), keys, bytes);
}

MOSS_CHECK static inline moss_answer moss_bs_get(const moss_byte_set *t, const uint8_t *key, size_t key_length)
{
    return moss_byte_set_get(MOSS_LENT_BYTE_SET(t), key, key_length);
}

MOSS_CHECK static inline moss_answer moss_bs_contains(const moss_byte_set *t, const uint8_t *key, size_t key_length)
{
    return moss_byte_set_contains(MOSS_LENT_BYTE_SET(t), key, key_length);
}

MOSS_CHECK static inline moss_answer moss_bs_insert(const moss_byte_set *t, const uint8_t *key, size_t key_length)
{
    return moss_byte_set_insert(MOSS_LENT_BYTE_SET(t), key, key_length);
}

MOSS_CHECK static inline moss_answer moss_bs_remove(const moss_byte_set *t, const uint8_t *key, size_t key_length)
{
    return moss_byte_set_remove(MOSS_LENT_BYTE_SET(t), key, key_length);
}

MOSS_CHECK static inline moss_answer moss_bs_copy(const moss_byte_set *t, const moss_byte_set *from)
{
    return moss_byte_set_copy(MOSS_LENT_BYTE_SET(t), MOSS_LENT_BYTE_SET(from));
}

MOSS_CHECK static inline moss_answer moss_bs_step(const moss_byte_set *t, uint64_t walk, uint64_t budget)
{
    return moss_byte_set_step(MOSS_LENT_BYTE_SET(t), walk, budget);
}

MOSS_CHECK static inline moss_answer moss_bs_walk_on(const moss_byte_set *t, uint64_t *walk, uint64_t budget)
{
    return moss_byte_set_walk_on(MOSS_LENT_BYTE_SET(t), walk, budget);
}

/* Those that only read it, of a view. */

MOSS_CHECK static inline moss_answer moss_bsv_capacity(const moss_byte_set_view *t)
{
    return moss_byte_set_capacity(MOSS_LENT_BYTE_SET(t));
}

MOSS_CHECK static inline moss_answer moss_bsv_len(const moss_byte_set_view *t)
{
    return moss_byte_set_len(MOSS_LENT_BYTE_SET(t));
}

MOSS_CHECK static inline moss_answer moss_bsv_is_empty(const moss_byte_set_view *t)
{
    return moss_byte_set_is_empty(MOSS_LENT_BYTE_SET(t));
}

MOSS_CHECK static inline moss_answer moss_bsv_reserve(const moss_byte_set_view *t, uint64_t keys, uint64_t bytes)
{
    return moss_byte_set_reserve(MOSS_LENT_BYTE_SET(t), keys, bytes);
}

MOSS_CHECK static inline moss_answer moss_bsv_get(const moss_byte_set_view *t, const uint8_t *key, size_t key_length)
{
    return moss_byte_set_get(MOSS_LENT_BYTE_SET(t), key, key_length);
}

MOSS_CHECK static inline moss_answer moss_bsv_contains(const moss_byte_set_view *t, const uint8_t *key, size_t key_length)
{
    return moss_byte_set_contains(MOSS_LENT_BYTE_SET(t), key, key_length);
}

MOSS_CHECK static inline moss_answer moss_bs_copy_view(const moss_byte_set *t, const moss_byte_set_view *from)
{
    return moss_byte_set_copy(MOSS_LENT_BYTE_SET(t), MOSS_LENT_BYTE_SET(from));
}

MOSS_CHECK static inline moss_answer moss_bsv_step(const moss_byte_set_view *t, uint64_t walk, uint64_t budget)
{
    return moss_byte_set_step(MOSS_LENT_BYTE_SET(t), walk, budget);
}

MOSS_CHECK static inline moss_answer moss_bsv_walk_on(const moss_byte_set_view *t, uint64_t *walk, uint64_t budget)
{
    return moss_byte_set_walk_on(MOSS_LENT_BYTE_SET(t), walk, budget);
}

/* The next pair of a walk, if there is one. */

MOSS_CHECK static inline int moss_bs_next(const moss_byte_set *t, moss_answer *step)
{
    do {
        *step = moss_bs_step(t, step->walk, t->slots);
    } while (step->which == MOSS_NOTHING);
    return step->which == MOSS_PAIR;
}

MOSS_CHECK static inline int moss_bsv_next(const moss_byte_set_view *t, moss_answer *step)
{
    do {
        *step = moss_bsv_step(t, step->walk, t->slots);
    } while (step->which == MOSS_NOTHING);
    return step->which == MOSS_PAIR;
}
/* end of calls of byte_set */

#ifdef MOSS_WIDE
/* The functions of the archives for other processors than x86-64, and the calls by them. */

uint64_t moss_digest_wide(const uint8_t *bytes, uint64_t length);
MOSS_CALL uint64_t moss_digest(const uint8_t *bytes, size_t length)
{
    return moss_digest_wide(bytes, length);
}

uint64_t moss_home_wide(const uint8_t *bytes, uint64_t length, uint64_t slots);
MOSS_CALL uint64_t moss_home(const uint8_t *bytes, size_t length, uint64_t slots)
{
    return moss_home_wide(bytes, length, slots);
}

/* from the list: wide calls of int_map */
moss_answer *moss_int_map_make_wide(moss_answer *MOSS_RESTRICT answer, uint8_t *MOSS_RESTRICT marks, uint64_t marks_count,
    uint64_t *MOSS_RESTRICT keys, uint64_t keys_count, uint64_t *MOSS_RESTRICT values, uint64_t values_count);
MOSS_CALL moss_answer moss_int_map_make(uint8_t *MOSS_RESTRICT marks, size_t marks_count,
    uint64_t *MOSS_RESTRICT keys, size_t keys_count, uint64_t *MOSS_RESTRICT values, size_t values_count)
{
    moss_answer answer;
    moss_int_map_make_wide(&answer, marks, marks_count, keys, keys_count, values, values_count);
    return answer;
}

moss_answer *moss_int_map_clear_wide(moss_answer *MOSS_RESTRICT answer, uint8_t *MOSS_RESTRICT marks, uint64_t marks_count,
    uint64_t *MOSS_RESTRICT keys, uint64_t keys_count, uint64_t *MOSS_RESTRICT values, uint64_t values_count);
MOSS_CALL moss_answer moss_int_map_clear(uint8_t *MOSS_RESTRICT marks, size_t marks_count,
    uint64_t *MOSS_RESTRICT keys, size_t keys_count, uint64_t *MOSS_RESTRICT values, size_t values_count)
{
    moss_answer answer;
    moss_int_map_clear_wide(&answer, marks, marks_count, keys, keys_count, values, values_count);
    return answer;
}

moss_answer *moss_int_map_capacity_wide(moss_answer *MOSS_RESTRICT answer, const uint8_t *MOSS_RESTRICT marks, uint64_t marks_count,
    const uint64_t *MOSS_RESTRICT keys, uint64_t keys_count, const uint64_t *MOSS_RESTRICT values, uint64_t values_count);
MOSS_CALL moss_answer moss_int_map_capacity(const uint8_t *MOSS_RESTRICT marks, size_t marks_count,
    const uint64_t *MOSS_RESTRICT keys, size_t keys_count, const uint64_t *MOSS_RESTRICT values, size_t values_count)
{
    moss_answer answer;
    moss_int_map_capacity_wide(&answer, marks, marks_count, keys, keys_count, values, values_count);
    return answer;
}

moss_answer *moss_int_map_len_wide(moss_answer *MOSS_RESTRICT answer, const uint8_t *MOSS_RESTRICT marks, uint64_t marks_count,
    const uint64_t *MOSS_RESTRICT keys, uint64_t keys_count, const uint64_t *MOSS_RESTRICT values, uint64_t values_count);
MOSS_CALL moss_answer moss_int_map_len(const uint8_t *MOSS_RESTRICT marks, size_t marks_count,
    const uint64_t *MOSS_RESTRICT keys, size_t keys_count, const uint64_t *MOSS_RESTRICT values, size_t values_count)
{
    moss_answer answer;
    moss_int_map_len_wide(&answer, marks, marks_count, keys, keys_count, values, values_count);
    return answer;
}

moss_answer *moss_int_map_is_empty_wide(moss_answer *MOSS_RESTRICT answer, const uint8_t *MOSS_RESTRICT marks, uint64_t marks_count,
    const uint64_t *MOSS_RESTRICT keys, uint64_t keys_count, const uint64_t *MOSS_RESTRICT values, uint64_t values_count);
MOSS_CALL moss_answer moss_int_map_is_empty(const uint8_t *MOSS_RESTRICT marks, size_t marks_count,
    const uint64_t *MOSS_RESTRICT keys, size_t keys_count, const uint64_t *MOSS_RESTRICT values, size_t values_count)
{
    moss_answer answer;
    moss_int_map_is_empty_wide(&answer, marks, marks_count, keys, keys_count, values, values_count);
    return answer;
}

moss_answer *moss_int_map_reserve_wide(moss_answer *MOSS_RESTRICT answer, const uint8_t *MOSS_RESTRICT marks, uint64_t marks_count,
    const uint64_t *MOSS_RESTRICT keys, uint64_t keys_count, const uint64_t *MOSS_RESTRICT values, uint64_t values_count,
    uint64_t asked);
MOSS_CALL moss_answer moss_int_map_reserve(const uint8_t *MOSS_RESTRICT marks, size_t marks_count,
    const uint64_t *MOSS_RESTRICT keys, size_t keys_count, const uint64_t *MOSS_RESTRICT values, size_t values_count,
    uint64_t asked)
{
    moss_answer answer;
    moss_int_map_reserve_wide(&answer, marks, marks_count, keys, keys_count, values, values_count, asked);
    return answer;
}

moss_answer *moss_int_map_get_wide(moss_answer *MOSS_RESTRICT answer, const uint8_t *MOSS_RESTRICT marks, uint64_t marks_count,
    const uint64_t *MOSS_RESTRICT keys, uint64_t keys_count, const uint64_t *MOSS_RESTRICT values, uint64_t values_count,
    uint64_t key);
MOSS_CALL moss_answer moss_int_map_get(const uint8_t *MOSS_RESTRICT marks, size_t marks_count,
    const uint64_t *MOSS_RESTRICT keys, size_t keys_count, const uint64_t *MOSS_RESTRICT values, size_t values_count, uint64_t key)
{
    moss_answer answer;
    moss_int_map_get_wide(&answer, marks, marks_count, keys, keys_count, values, values_count, key);
    return answer;
}

moss_answer *moss_int_map_contains_key_wide(moss_answer *MOSS_RESTRICT answer,
    const uint8_t *MOSS_RESTRICT marks, uint64_t marks_count, const uint64_t *MOSS_RESTRICT keys, uint64_t keys_count,
    const uint64_t *MOSS_RESTRICT values, uint64_t values_count, uint64_t key);
MOSS_CALL moss_answer moss_int_map_contains_key(const uint8_t *MOSS_RESTRICT marks, size_t marks_count,
    const uint64_t *MOSS_RESTRICT keys, size_t keys_count, const uint64_t *MOSS_RESTRICT values, size_t values_count, uint64_t key)
{
    moss_answer answer;
    moss_int_map_contains_key_wide(&answer, marks, marks_count, keys, keys_count, values, values_count, key);
    return answer;
}

moss_answer *moss_int_map_insert_wide(moss_answer *MOSS_RESTRICT answer, uint8_t *MOSS_RESTRICT marks, uint64_t marks_count,
    uint64_t *MOSS_RESTRICT keys, uint64_t keys_count, uint64_t *MOSS_RESTRICT values, uint64_t values_count, uint64_t key,
    uint64_t value);
MOSS_CALL moss_answer moss_int_map_insert(uint8_t *MOSS_RESTRICT marks, size_t marks_count,
    uint64_t *MOSS_RESTRICT keys, size_t keys_count, uint64_t *MOSS_RESTRICT values, size_t values_count, uint64_t key,
    uint64_t value)
{
    moss_answer answer;
    moss_int_map_insert_wide(&answer, marks, marks_count, keys, keys_count, values, values_count, key, value);
    return answer;
}

moss_answer *moss_int_map_remove_wide(moss_answer *MOSS_RESTRICT answer, uint8_t *MOSS_RESTRICT marks, uint64_t marks_count,
    uint64_t *MOSS_RESTRICT keys, uint64_t keys_count, uint64_t *MOSS_RESTRICT values, uint64_t values_count, uint64_t key);
MOSS_CALL moss_answer moss_int_map_remove(uint8_t *MOSS_RESTRICT marks, size_t marks_count,
    uint64_t *MOSS_RESTRICT keys, size_t keys_count, uint64_t *MOSS_RESTRICT values, size_t values_count, uint64_t key)
{
    moss_answer answer;
    moss_int_map_remove_wide(&answer, marks, marks_count, keys, keys_count, values, values_count, key);
    return answer;
}

moss_answer *moss_int_map_copy_wide(moss_answer *MOSS_RESTRICT answer, uint8_t *MOSS_RESTRICT to_marks, uint64_t to_marks_count,
    uint64_t *MOSS_RESTRICT to_keys, uint64_t to_keys_count, uint64_t *MOSS_RESTRICT to_values, uint64_t to_values_count,
    const uint8_t *MOSS_RESTRICT marks, uint64_t marks_count, const uint64_t *MOSS_RESTRICT keys, uint64_t keys_count,
    const uint64_t *MOSS_RESTRICT values, uint64_t values_count);
MOSS_CALL moss_answer moss_int_map_copy(uint8_t *MOSS_RESTRICT to_marks, size_t to_marks_count,
    uint64_t *MOSS_RESTRICT to_keys, size_t to_keys_count, uint64_t *MOSS_RESTRICT to_values, size_t to_values_count,
    const uint8_t *MOSS_RESTRICT marks, size_t marks_count, const uint64_t *MOSS_RESTRICT keys, size_t keys_count,
    const uint64_t *MOSS_RESTRICT values, size_t values_count)
{
    moss_answer answer;
    moss_int_map_copy_wide(&answer, to_marks, to_marks_count, to_keys, to_keys_count, to_values, to_values_count, marks,
        marks_count, keys, keys_count, values, values_count);
    return answer;
}

moss_answer *moss_int_map_union_prefer_right_wide(moss_answer *MOSS_RESTRICT answer,
    uint8_t *MOSS_RESTRICT marks, uint64_t marks_count, uint64_t *MOSS_RESTRICT keys, uint64_t keys_count,
    uint64_t *MOSS_RESTRICT values, uint64_t values_count, const uint8_t *MOSS_RESTRICT right_marks, uint64_t right_marks_count,
    const uint64_t *MOSS_RESTRICT right_keys, uint64_t right_keys_count,
    const uint64_t *MOSS_RESTRICT right_values, uint64_t right_values_count);
MOSS_CALL moss_answer moss_int_map_union_prefer_right(uint8_t *MOSS_RESTRICT marks, size_t marks_count,
    uint64_t *MOSS_RESTRICT keys, size_t keys_count, uint64_t *MOSS_RESTRICT values, size_t values_count,
    const uint8_t *MOSS_RESTRICT right_marks, size_t right_marks_count,
    const uint64_t *MOSS_RESTRICT right_keys, size_t right_keys_count,
    const uint64_t *MOSS_RESTRICT right_values, size_t right_values_count)
{
    moss_answer answer;
    moss_int_map_union_prefer_right_wide(&answer, marks, marks_count, keys, keys_count, values, values_count, right_marks,
        right_marks_count, right_keys, right_keys_count, right_values, right_values_count);
    return answer;
}

moss_answer *moss_int_map_entry_wide(moss_answer *MOSS_RESTRICT answer, const uint8_t *MOSS_RESTRICT marks, uint64_t marks_count,
    const uint64_t *MOSS_RESTRICT keys, uint64_t keys_count, const uint64_t *MOSS_RESTRICT values, uint64_t values_count,
    uint64_t key);
MOSS_CALL moss_answer moss_int_map_entry(const uint8_t *MOSS_RESTRICT marks, size_t marks_count,
    const uint64_t *MOSS_RESTRICT keys, size_t keys_count, const uint64_t *MOSS_RESTRICT values, size_t values_count, uint64_t key)
{
    moss_answer answer;
    moss_int_map_entry_wide(&answer, marks, marks_count, keys, keys_count, values, values_count, key);
    return answer;
}

moss_answer *moss_int_map_occupied_get_wide(moss_answer *MOSS_RESTRICT answer,
    const uint8_t *MOSS_RESTRICT marks, uint64_t marks_count, const uint64_t *MOSS_RESTRICT keys, uint64_t keys_count,
    const uint64_t *MOSS_RESTRICT values, uint64_t values_count, uint64_t slot, uint64_t key);
MOSS_CALL moss_answer moss_int_map_occupied_get(const uint8_t *MOSS_RESTRICT marks, size_t marks_count,
    const uint64_t *MOSS_RESTRICT keys, size_t keys_count, const uint64_t *MOSS_RESTRICT values, size_t values_count, uint64_t slot,
    uint64_t key)
{
    moss_answer answer;
    moss_int_map_occupied_get_wide(&answer, marks, marks_count, keys, keys_count, values, values_count, slot, key);
    return answer;
}

moss_answer *moss_int_map_occupied_set_wide(moss_answer *MOSS_RESTRICT answer, uint8_t *MOSS_RESTRICT marks, uint64_t marks_count,
    uint64_t *MOSS_RESTRICT keys, uint64_t keys_count, uint64_t *MOSS_RESTRICT values, uint64_t values_count, uint64_t slot,
    uint64_t key, uint64_t value);
MOSS_CALL moss_answer moss_int_map_occupied_set(uint8_t *MOSS_RESTRICT marks, size_t marks_count,
    uint64_t *MOSS_RESTRICT keys, size_t keys_count, uint64_t *MOSS_RESTRICT values, size_t values_count, uint64_t slot,
    uint64_t key, uint64_t value)
{
    moss_answer answer;
    moss_int_map_occupied_set_wide(&answer, marks, marks_count, keys, keys_count, values, values_count, slot, key, value);
    return answer;
}

moss_answer *moss_int_map_occupied_remove_wide(moss_answer *MOSS_RESTRICT answer,
    uint8_t *MOSS_RESTRICT marks, uint64_t marks_count, uint64_t *MOSS_RESTRICT keys, uint64_t keys_count,
    uint64_t *MOSS_RESTRICT values, uint64_t values_count, uint64_t slot, uint64_t key);
MOSS_CALL moss_answer moss_int_map_occupied_remove(uint8_t *MOSS_RESTRICT marks, size_t marks_count,
    uint64_t *MOSS_RESTRICT keys, size_t keys_count, uint64_t *MOSS_RESTRICT values, size_t values_count, uint64_t slot,
    uint64_t key)
{
    moss_answer answer;
    moss_int_map_occupied_remove_wide(&answer, marks, marks_count, keys, keys_count, values, values_count, slot, key);
    return answer;
}

moss_answer *moss_int_map_occupied_remove_entry_wide(moss_answer *MOSS_RESTRICT answer,
    uint8_t *MOSS_RESTRICT marks, uint64_t marks_count, uint64_t *MOSS_RESTRICT keys, uint64_t keys_count,
    uint64_t *MOSS_RESTRICT values, uint64_t values_count, uint64_t slot, uint64_t key);
MOSS_CALL moss_answer moss_int_map_occupied_remove_entry(uint8_t *MOSS_RESTRICT marks, size_t marks_count,
    uint64_t *MOSS_RESTRICT keys, size_t keys_count, uint64_t *MOSS_RESTRICT values, size_t values_count, uint64_t slot,
    uint64_t key)
{
    moss_answer answer;
    moss_int_map_occupied_remove_entry_wide(&answer, marks, marks_count, keys, keys_count, values, values_count, slot, key);
    return answer;
}

moss_answer *moss_int_map_vacant_insert_wide(moss_answer *MOSS_RESTRICT answer, uint8_t *MOSS_RESTRICT marks, uint64_t marks_count,
    uint64_t *MOSS_RESTRICT keys, uint64_t keys_count, uint64_t *MOSS_RESTRICT values, uint64_t values_count, uint64_t slot,
    uint64_t key, uint64_t value);
MOSS_CALL moss_answer moss_int_map_vacant_insert(uint8_t *MOSS_RESTRICT marks, size_t marks_count,
    uint64_t *MOSS_RESTRICT keys, size_t keys_count, uint64_t *MOSS_RESTRICT values, size_t values_count, uint64_t slot,
    uint64_t key, uint64_t value)
{
    moss_answer answer;
    moss_int_map_vacant_insert_wide(&answer, marks, marks_count, keys, keys_count, values, values_count, slot, key, value);
    return answer;
}

moss_answer *moss_int_map_or_insert_wide(moss_answer *MOSS_RESTRICT answer, uint8_t *MOSS_RESTRICT marks, uint64_t marks_count,
    uint64_t *MOSS_RESTRICT keys, uint64_t keys_count, uint64_t *MOSS_RESTRICT values, uint64_t values_count, uint64_t which,
    uint64_t slot, uint64_t key, uint64_t value);
MOSS_CALL moss_answer moss_int_map_or_insert(uint8_t *MOSS_RESTRICT marks, size_t marks_count,
    uint64_t *MOSS_RESTRICT keys, size_t keys_count, uint64_t *MOSS_RESTRICT values, size_t values_count, uint64_t which,
    uint64_t slot, uint64_t key, uint64_t value)
{
    moss_answer answer;
    moss_int_map_or_insert_wide(&answer, marks, marks_count, keys, keys_count, values, values_count, which, slot, key, value);
    return answer;
}

moss_answer *moss_int_map_insert_entry_wide(moss_answer *MOSS_RESTRICT answer, uint8_t *MOSS_RESTRICT marks, uint64_t marks_count,
    uint64_t *MOSS_RESTRICT keys, uint64_t keys_count, uint64_t *MOSS_RESTRICT values, uint64_t values_count, uint64_t which,
    uint64_t slot, uint64_t key, uint64_t value);
MOSS_CALL moss_answer moss_int_map_insert_entry(uint8_t *MOSS_RESTRICT marks, size_t marks_count,
    uint64_t *MOSS_RESTRICT keys, size_t keys_count, uint64_t *MOSS_RESTRICT values, size_t values_count, uint64_t which,
    uint64_t slot, uint64_t key, uint64_t value)
{
    moss_answer answer;
    moss_int_map_insert_entry_wide(&answer, marks, marks_count, keys, keys_count, values, values_count, which, slot, key, value);
    return answer;
}

uint64_t moss_int_map_walk_start_wide(void);
MOSS_CALL uint64_t moss_int_map_walk_start(void)
{
    return moss_int_map_walk_start_wide();
}

moss_answer *moss_int_map_step_wide(moss_answer *MOSS_RESTRICT answer, const uint8_t *MOSS_RESTRICT marks, uint64_t marks_count,
    const uint64_t *MOSS_RESTRICT keys, uint64_t keys_count, const uint64_t *MOSS_RESTRICT values, uint64_t values_count,
    uint64_t walk, uint64_t budget);
MOSS_CALL moss_answer moss_int_map_step(const uint8_t *MOSS_RESTRICT marks, size_t marks_count,
    const uint64_t *MOSS_RESTRICT keys, size_t keys_count, const uint64_t *MOSS_RESTRICT values, size_t values_count, uint64_t walk,
    uint64_t budget)
{
    moss_answer answer;
    moss_int_map_step_wide(&answer, marks, marks_count, keys, keys_count, values, values_count, walk, budget);
    return answer;
}

moss_answer *moss_int_map_walk_on_wide(moss_answer *MOSS_RESTRICT answer, const uint8_t *MOSS_RESTRICT marks, uint64_t marks_count,
    const uint64_t *MOSS_RESTRICT keys, uint64_t keys_count, const uint64_t *MOSS_RESTRICT values, uint64_t values_count,
    uint64_t *MOSS_RESTRICT walk, uint64_t budget);
MOSS_CALL moss_answer moss_int_map_walk_on(const uint8_t *MOSS_RESTRICT marks, size_t marks_count,
    const uint64_t *MOSS_RESTRICT keys, size_t keys_count, const uint64_t *MOSS_RESTRICT values, size_t values_count,
    uint64_t *MOSS_RESTRICT walk, uint64_t budget)
{
    moss_answer answer;
    moss_int_map_walk_on_wide(&answer, marks, marks_count, keys, keys_count, values, values_count, walk, budget);
    return answer;
}
/* end of wide calls of int_map */

/* from the list: wide calls of int_set */
moss_answer *moss_int_set_make_wide(moss_answer *MOSS_RESTRICT answer, uint8_t *MOSS_RESTRICT marks, uint64_t marks_count,
    uint64_t *MOSS_RESTRICT keys, uint64_t keys_count);
MOSS_CALL moss_answer moss_int_set_make(uint8_t *MOSS_RESTRICT marks, size_t marks_count,
    uint64_t *MOSS_RESTRICT keys, size_t keys_count)
{
    moss_answer answer;
    moss_int_set_make_wide(&answer, marks, marks_count, keys, keys_count);
    return answer;
}

moss_answer *moss_int_set_clear_wide(moss_answer *MOSS_RESTRICT answer, uint8_t *MOSS_RESTRICT marks, uint64_t marks_count,
    uint64_t *MOSS_RESTRICT keys, uint64_t keys_count);
MOSS_CALL moss_answer moss_int_set_clear(uint8_t *MOSS_RESTRICT marks, size_t marks_count,
    uint64_t *MOSS_RESTRICT keys, size_t keys_count)
{
    moss_answer answer;
    moss_int_set_clear_wide(&answer, marks, marks_count, keys, keys_count);
    return answer;
}

moss_answer *moss_int_set_capacity_wide(moss_answer *MOSS_RESTRICT answer, const uint8_t *MOSS_RESTRICT marks, uint64_t marks_count,
    const uint64_t *MOSS_RESTRICT keys, uint64_t keys_count);
MOSS_CALL moss_answer moss_int_set_capacity(const uint8_t *MOSS_RESTRICT marks, size_t marks_count,
    const uint64_t *MOSS_RESTRICT keys, size_t keys_count)
{
    moss_answer answer;
    moss_int_set_capacity_wide(&answer, marks, marks_count, keys, keys_count);
    return answer;
}

moss_answer *moss_int_set_len_wide(moss_answer *MOSS_RESTRICT answer, const uint8_t *MOSS_RESTRICT marks, uint64_t marks_count,
    const uint64_t *MOSS_RESTRICT keys, uint64_t keys_count);
MOSS_CALL moss_answer moss_int_set_len(const uint8_t *MOSS_RESTRICT marks, size_t marks_count,
    const uint64_t *MOSS_RESTRICT keys, size_t keys_count)
{
    moss_answer answer;
    moss_int_set_len_wide(&answer, marks, marks_count, keys, keys_count);
    return answer;
}

moss_answer *moss_int_set_is_empty_wide(moss_answer *MOSS_RESTRICT answer, const uint8_t *MOSS_RESTRICT marks, uint64_t marks_count,
    const uint64_t *MOSS_RESTRICT keys, uint64_t keys_count);
MOSS_CALL moss_answer moss_int_set_is_empty(const uint8_t *MOSS_RESTRICT marks, size_t marks_count,
    const uint64_t *MOSS_RESTRICT keys, size_t keys_count)
{
    moss_answer answer;
    moss_int_set_is_empty_wide(&answer, marks, marks_count, keys, keys_count);
    return answer;
}

moss_answer *moss_int_set_reserve_wide(moss_answer *MOSS_RESTRICT answer, const uint8_t *MOSS_RESTRICT marks, uint64_t marks_count,
    const uint64_t *MOSS_RESTRICT keys, uint64_t keys_count, uint64_t asked);
MOSS_CALL moss_answer moss_int_set_reserve(const uint8_t *MOSS_RESTRICT marks, size_t marks_count,
    const uint64_t *MOSS_RESTRICT keys, size_t keys_count, uint64_t asked)
{
    moss_answer answer;
    moss_int_set_reserve_wide(&answer, marks, marks_count, keys, keys_count, asked);
    return answer;
}

moss_answer *moss_int_set_get_wide(moss_answer *MOSS_RESTRICT answer, const uint8_t *MOSS_RESTRICT marks, uint64_t marks_count,
    const uint64_t *MOSS_RESTRICT keys, uint64_t keys_count, uint64_t key);
MOSS_CALL moss_answer moss_int_set_get(const uint8_t *MOSS_RESTRICT marks, size_t marks_count,
    const uint64_t *MOSS_RESTRICT keys, size_t keys_count, uint64_t key)
{
    moss_answer answer;
    moss_int_set_get_wide(&answer, marks, marks_count, keys, keys_count, key);
    return answer;
}

moss_answer *moss_int_set_contains_wide(moss_answer *MOSS_RESTRICT answer, const uint8_t *MOSS_RESTRICT marks, uint64_t marks_count,
    const uint64_t *MOSS_RESTRICT keys, uint64_t keys_count, uint64_t key);
MOSS_CALL moss_answer moss_int_set_contains(const uint8_t *MOSS_RESTRICT marks, size_t marks_count,
    const uint64_t *MOSS_RESTRICT keys, size_t keys_count, uint64_t key)
{
    moss_answer answer;
    moss_int_set_contains_wide(&answer, marks, marks_count, keys, keys_count, key);
    return answer;
}

moss_answer *moss_int_set_insert_wide(moss_answer *MOSS_RESTRICT answer, uint8_t *MOSS_RESTRICT marks, uint64_t marks_count,
    uint64_t *MOSS_RESTRICT keys, uint64_t keys_count, uint64_t key);
MOSS_CALL moss_answer moss_int_set_insert(uint8_t *MOSS_RESTRICT marks, size_t marks_count,
    uint64_t *MOSS_RESTRICT keys, size_t keys_count, uint64_t key)
{
    moss_answer answer;
    moss_int_set_insert_wide(&answer, marks, marks_count, keys, keys_count, key);
    return answer;
}

moss_answer *moss_int_set_remove_wide(moss_answer *MOSS_RESTRICT answer, uint8_t *MOSS_RESTRICT marks, uint64_t marks_count,
    uint64_t *MOSS_RESTRICT keys, uint64_t keys_count, uint64_t key);
MOSS_CALL moss_answer moss_int_set_remove(uint8_t *MOSS_RESTRICT marks, size_t marks_count,
    uint64_t *MOSS_RESTRICT keys, size_t keys_count, uint64_t key)
{
    moss_answer answer;
    moss_int_set_remove_wide(&answer, marks, marks_count, keys, keys_count, key);
    return answer;
}

moss_answer *moss_int_set_copy_wide(moss_answer *MOSS_RESTRICT answer, uint8_t *MOSS_RESTRICT to_marks, uint64_t to_marks_count,
    uint64_t *MOSS_RESTRICT to_keys, uint64_t to_keys_count, const uint8_t *MOSS_RESTRICT marks, uint64_t marks_count,
    const uint64_t *MOSS_RESTRICT keys, uint64_t keys_count);
MOSS_CALL moss_answer moss_int_set_copy(uint8_t *MOSS_RESTRICT to_marks, size_t to_marks_count,
    uint64_t *MOSS_RESTRICT to_keys, size_t to_keys_count, const uint8_t *MOSS_RESTRICT marks, size_t marks_count,
    const uint64_t *MOSS_RESTRICT keys, size_t keys_count)
{
    moss_answer answer;
    moss_int_set_copy_wide(&answer, to_marks, to_marks_count, to_keys, to_keys_count, marks, marks_count, keys, keys_count);
    return answer;
}

uint64_t moss_int_set_walk_start_wide(void);
MOSS_CALL uint64_t moss_int_set_walk_start(void)
{
    return moss_int_set_walk_start_wide();
}

moss_answer *moss_int_set_step_wide(moss_answer *MOSS_RESTRICT answer, const uint8_t *MOSS_RESTRICT marks, uint64_t marks_count,
    const uint64_t *MOSS_RESTRICT keys, uint64_t keys_count, uint64_t walk, uint64_t budget);
MOSS_CALL moss_answer moss_int_set_step(const uint8_t *MOSS_RESTRICT marks, size_t marks_count,
    const uint64_t *MOSS_RESTRICT keys, size_t keys_count, uint64_t walk, uint64_t budget)
{
    moss_answer answer;
    moss_int_set_step_wide(&answer, marks, marks_count, keys, keys_count, walk, budget);
    return answer;
}

moss_answer *moss_int_set_walk_on_wide(moss_answer *MOSS_RESTRICT answer, const uint8_t *MOSS_RESTRICT marks, uint64_t marks_count,
    const uint64_t *MOSS_RESTRICT keys, uint64_t keys_count, uint64_t *MOSS_RESTRICT walk, uint64_t budget);
MOSS_CALL moss_answer moss_int_set_walk_on(const uint8_t *MOSS_RESTRICT marks, size_t marks_count,
    const uint64_t *MOSS_RESTRICT keys, size_t keys_count, uint64_t *MOSS_RESTRICT walk, uint64_t budget)
{
    moss_answer answer;
    moss_int_set_walk_on_wide(&answer, marks, marks_count, keys, keys_count, walk, budget);
    return answer;
}
/* end of wide calls of int_set */

/* from the list: wide calls of byte_map */
moss_answer *moss_byte_map_make_wide(moss_answer *MOSS_RESTRICT answer, uint8_t *MOSS_RESTRICT marks, uint64_t marks_count,
    uint16_t *MOSS_RESTRICT offsets, uint64_t offsets_count, uint8_t *MOSS_RESTRICT lengths, uint64_t lengths_count,
    uint64_t *MOSS_RESTRICT values, uint64_t values_count, uint8_t *MOSS_RESTRICT arena, uint64_t arena_count);
MOSS_CALL moss_answer moss_byte_map_make(uint8_t *MOSS_RESTRICT marks, size_t marks_count,
    uint16_t *MOSS_RESTRICT offsets, size_t offsets_count, uint8_t *MOSS_RESTRICT lengths, size_t lengths_count,
    uint64_t *MOSS_RESTRICT values, size_t values_count, uint8_t *MOSS_RESTRICT arena, size_t arena_count)
{
    moss_answer answer;
    moss_byte_map_make_wide(&answer, marks, marks_count, offsets, offsets_count, lengths, lengths_count, values, values_count,
        arena, arena_count);
    return answer;
}

moss_answer *moss_byte_map_clear_wide(moss_answer *MOSS_RESTRICT answer, uint8_t *MOSS_RESTRICT marks, uint64_t marks_count,
    uint16_t *MOSS_RESTRICT offsets, uint64_t offsets_count, uint8_t *MOSS_RESTRICT lengths, uint64_t lengths_count,
    uint64_t *MOSS_RESTRICT values, uint64_t values_count, uint8_t *MOSS_RESTRICT arena, uint64_t arena_count);
MOSS_CALL moss_answer moss_byte_map_clear(uint8_t *MOSS_RESTRICT marks, size_t marks_count,
    uint16_t *MOSS_RESTRICT offsets, size_t offsets_count, uint8_t *MOSS_RESTRICT lengths, size_t lengths_count,
    uint64_t *MOSS_RESTRICT values, size_t values_count, uint8_t *MOSS_RESTRICT arena, size_t arena_count)
{
    moss_answer answer;
    moss_byte_map_clear_wide(&answer, marks, marks_count, offsets, offsets_count, lengths, lengths_count, values, values_count,
        arena, arena_count);
    return answer;
}

moss_answer *moss_byte_map_capacity_wide(moss_answer *MOSS_RESTRICT answer,
    const uint8_t *MOSS_RESTRICT marks, uint64_t marks_count, const uint16_t *MOSS_RESTRICT offsets, uint64_t offsets_count,
    const uint8_t *MOSS_RESTRICT lengths, uint64_t lengths_count, const uint64_t *MOSS_RESTRICT values, uint64_t values_count,
    const uint8_t *MOSS_RESTRICT arena, uint64_t arena_count);
MOSS_CALL moss_answer moss_byte_map_capacity(const uint8_t *MOSS_RESTRICT marks, size_t marks_count,
    const uint16_t *MOSS_RESTRICT offsets, size_t offsets_count, const uint8_t *MOSS_RESTRICT lengths, size_t lengths_count,
    const uint64_t *MOSS_RESTRICT values, size_t values_count, const uint8_t *MOSS_RESTRICT arena, size_t arena_count)
{
    moss_answer answer;
    moss_byte_map_capacity_wide(&answer, marks, marks_count, offsets, offsets_count, lengths, lengths_count, values, values_count,
        arena, arena_count);
    return answer;
}

moss_answer *moss_byte_map_len_wide(moss_answer *MOSS_RESTRICT answer, const uint8_t *MOSS_RESTRICT marks, uint64_t marks_count,
    const uint16_t *MOSS_RESTRICT offsets, uint64_t offsets_count, const uint8_t *MOSS_RESTRICT lengths, uint64_t lengths_count,
    const uint64_t *MOSS_RESTRICT values, uint64_t values_count, const uint8_t *MOSS_RESTRICT arena, uint64_t arena_count);
MOSS_CALL moss_answer moss_byte_map_len(const uint8_t *MOSS_RESTRICT marks, size_t marks_count,
    const uint16_t *MOSS_RESTRICT offsets, size_t offsets_count, const uint8_t *MOSS_RESTRICT lengths, size_t lengths_count,
    const uint64_t *MOSS_RESTRICT values, size_t values_count, const uint8_t *MOSS_RESTRICT arena, size_t arena_count)
{
    moss_answer answer;
    moss_byte_map_len_wide(&answer, marks, marks_count, offsets, offsets_count, lengths, lengths_count, values, values_count, arena,
        arena_count);
    return answer;
}

moss_answer *moss_byte_map_is_empty_wide(moss_answer *MOSS_RESTRICT answer,
    const uint8_t *MOSS_RESTRICT marks, uint64_t marks_count, const uint16_t *MOSS_RESTRICT offsets, uint64_t offsets_count,
    const uint8_t *MOSS_RESTRICT lengths, uint64_t lengths_count, const uint64_t *MOSS_RESTRICT values, uint64_t values_count,
    const uint8_t *MOSS_RESTRICT arena, uint64_t arena_count);
MOSS_CALL moss_answer moss_byte_map_is_empty(const uint8_t *MOSS_RESTRICT marks, size_t marks_count,
    const uint16_t *MOSS_RESTRICT offsets, size_t offsets_count, const uint8_t *MOSS_RESTRICT lengths, size_t lengths_count,
    const uint64_t *MOSS_RESTRICT values, size_t values_count, const uint8_t *MOSS_RESTRICT arena, size_t arena_count)
{
    moss_answer answer;
    moss_byte_map_is_empty_wide(&answer, marks, marks_count, offsets, offsets_count, lengths, lengths_count, values, values_count,
        arena, arena_count);
    return answer;
}

moss_answer *moss_byte_map_reserve_wide(moss_answer *MOSS_RESTRICT answer, const uint8_t *MOSS_RESTRICT marks, uint64_t marks_count,
    const uint16_t *MOSS_RESTRICT offsets, uint64_t offsets_count, const uint8_t *MOSS_RESTRICT lengths, uint64_t lengths_count,
    const uint64_t *MOSS_RESTRICT values, uint64_t values_count, const uint8_t *MOSS_RESTRICT arena, uint64_t arena_count,
    uint64_t keys, uint64_t bytes);
MOSS_CALL moss_answer moss_byte_map_reserve(const uint8_t *MOSS_RESTRICT marks, size_t marks_count,
    const uint16_t *MOSS_RESTRICT offsets, size_t offsets_count, const uint8_t *MOSS_RESTRICT lengths, size_t lengths_count,
    const uint64_t *MOSS_RESTRICT values, size_t values_count, const uint8_t *MOSS_RESTRICT arena, size_t arena_count,
    uint64_t keys, uint64_t bytes)
{
    moss_answer answer;
    moss_byte_map_reserve_wide(&answer, marks, marks_count, offsets, offsets_count, lengths, lengths_count, values, values_count,
        arena, arena_count, keys, bytes);
    return answer;
}

moss_answer *moss_byte_map_get_wide(moss_answer *MOSS_RESTRICT answer, const uint8_t *MOSS_RESTRICT marks, uint64_t marks_count,
    const uint16_t *MOSS_RESTRICT offsets, uint64_t offsets_count, const uint8_t *MOSS_RESTRICT lengths, uint64_t lengths_count,
    const uint64_t *MOSS_RESTRICT values, uint64_t values_count, const uint8_t *MOSS_RESTRICT arena, uint64_t arena_count,
    const uint8_t *MOSS_RESTRICT key, uint64_t key_length);
MOSS_CALL moss_answer moss_byte_map_get(const uint8_t *MOSS_RESTRICT marks, size_t marks_count,
    const uint16_t *MOSS_RESTRICT offsets, size_t offsets_count, const uint8_t *MOSS_RESTRICT lengths, size_t lengths_count,
    const uint64_t *MOSS_RESTRICT values, size_t values_count, const uint8_t *MOSS_RESTRICT arena, size_t arena_count,
    const uint8_t *MOSS_RESTRICT key, size_t key_length)
{
    moss_answer answer;
    moss_byte_map_get_wide(&answer, marks, marks_count, offsets, offsets_count, lengths, lengths_count, values, values_count, arena,
        arena_count, key, key_length);
    return answer;
}

moss_answer *moss_byte_map_contains_key_wide(moss_answer *MOSS_RESTRICT answer,
    const uint8_t *MOSS_RESTRICT marks, uint64_t marks_count, const uint16_t *MOSS_RESTRICT offsets, uint64_t offsets_count,
    const uint8_t *MOSS_RESTRICT lengths, uint64_t lengths_count, const uint64_t *MOSS_RESTRICT values, uint64_t values_count,
    const uint8_t *MOSS_RESTRICT arena, uint64_t arena_count, const uint8_t *MOSS_RESTRICT key, uint64_t key_length);
MOSS_CALL moss_answer moss_byte_map_contains_key(const uint8_t *MOSS_RESTRICT marks, size_t marks_count,
    const uint16_t *MOSS_RESTRICT offsets, size_t offsets_count, const uint8_t *MOSS_RESTRICT lengths, size_t lengths_count,
    const uint64_t *MOSS_RESTRICT values, size_t values_count, const uint8_t *MOSS_RESTRICT arena, size_t arena_count,
    const uint8_t *MOSS_RESTRICT key, size_t key_length)
{
    moss_answer answer;
    moss_byte_map_contains_key_wide(&answer, marks, marks_count, offsets, offsets_count, lengths, lengths_count, values,
        values_count, arena, arena_count, key, key_length);
    return answer;
}

moss_answer *moss_byte_map_insert_wide(moss_answer *MOSS_RESTRICT answer, uint8_t *MOSS_RESTRICT marks, uint64_t marks_count,
    uint16_t *MOSS_RESTRICT offsets, uint64_t offsets_count, uint8_t *MOSS_RESTRICT lengths, uint64_t lengths_count,
    uint64_t *MOSS_RESTRICT values, uint64_t values_count, uint8_t *MOSS_RESTRICT arena, uint64_t arena_count,
    const uint8_t *MOSS_RESTRICT key, uint64_t key_length, uint64_t value);
MOSS_CALL moss_answer moss_byte_map_insert(uint8_t *MOSS_RESTRICT marks, size_t marks_count,
    uint16_t *MOSS_RESTRICT offsets, size_t offsets_count, uint8_t *MOSS_RESTRICT lengths, size_t lengths_count,
    uint64_t *MOSS_RESTRICT values, size_t values_count, uint8_t *MOSS_RESTRICT arena, size_t arena_count,
    const uint8_t *MOSS_RESTRICT key, size_t key_length, uint64_t value)
{
    moss_answer answer;
    moss_byte_map_insert_wide(&answer, marks, marks_count, offsets, offsets_count, lengths, lengths_count, values, values_count,
        arena, arena_count, key, key_length, value);
    return answer;
}

moss_answer *moss_byte_map_remove_wide(moss_answer *MOSS_RESTRICT answer, uint8_t *MOSS_RESTRICT marks, uint64_t marks_count,
    uint16_t *MOSS_RESTRICT offsets, uint64_t offsets_count, uint8_t *MOSS_RESTRICT lengths, uint64_t lengths_count,
    uint64_t *MOSS_RESTRICT values, uint64_t values_count, uint8_t *MOSS_RESTRICT arena, uint64_t arena_count,
    const uint8_t *MOSS_RESTRICT key, uint64_t key_length);
MOSS_CALL moss_answer moss_byte_map_remove(uint8_t *MOSS_RESTRICT marks, size_t marks_count,
    uint16_t *MOSS_RESTRICT offsets, size_t offsets_count, uint8_t *MOSS_RESTRICT lengths, size_t lengths_count,
    uint64_t *MOSS_RESTRICT values, size_t values_count, uint8_t *MOSS_RESTRICT arena, size_t arena_count,
    const uint8_t *MOSS_RESTRICT key, size_t key_length)
{
    moss_answer answer;
    moss_byte_map_remove_wide(&answer, marks, marks_count, offsets, offsets_count, lengths, lengths_count, values, values_count,
        arena, arena_count, key, key_length);
    return answer;
}

moss_answer *moss_byte_map_copy_wide(moss_answer *MOSS_RESTRICT answer, uint8_t *MOSS_RESTRICT to_marks, uint64_t to_marks_count,
    uint16_t *MOSS_RESTRICT to_offsets, uint64_t to_offsets_count, uint8_t *MOSS_RESTRICT to_lengths, uint64_t to_lengths_count,
    uint64_t *MOSS_RESTRICT to_values, uint64_t to_values_count, uint8_t *MOSS_RESTRICT to_arena, uint64_t to_arena_count,
    const uint8_t *MOSS_RESTRICT marks, uint64_t marks_count, const uint16_t *MOSS_RESTRICT offsets, uint64_t offsets_count,
    const uint8_t *MOSS_RESTRICT lengths, uint64_t lengths_count, const uint64_t *MOSS_RESTRICT values, uint64_t values_count,
    const uint8_t *MOSS_RESTRICT arena, uint64_t arena_count);
MOSS_CALL moss_answer moss_byte_map_copy(uint8_t *MOSS_RESTRICT to_marks, size_t to_marks_count,
    uint16_t *MOSS_RESTRICT to_offsets, size_t to_offsets_count, uint8_t *MOSS_RESTRICT to_lengths, size_t to_lengths_count,
    uint64_t *MOSS_RESTRICT to_values, size_t to_values_count, uint8_t *MOSS_RESTRICT to_arena, size_t to_arena_count,
    const uint8_t *MOSS_RESTRICT marks, size_t marks_count, const uint16_t *MOSS_RESTRICT offsets, size_t offsets_count,
    const uint8_t *MOSS_RESTRICT lengths, size_t lengths_count, const uint64_t *MOSS_RESTRICT values, size_t values_count,
    const uint8_t *MOSS_RESTRICT arena, size_t arena_count)
{
    moss_answer answer;
    moss_byte_map_copy_wide(&answer, to_marks, to_marks_count, to_offsets, to_offsets_count, to_lengths, to_lengths_count,
        to_values, to_values_count, to_arena, to_arena_count, marks, marks_count, offsets, offsets_count, lengths, lengths_count,
        values, values_count, arena, arena_count);
    return answer;
}

moss_answer *moss_byte_map_union_prefer_right_wide(moss_answer *MOSS_RESTRICT answer,
    uint8_t *MOSS_RESTRICT marks, uint64_t marks_count, uint16_t *MOSS_RESTRICT offsets, uint64_t offsets_count,
    uint8_t *MOSS_RESTRICT lengths, uint64_t lengths_count, uint64_t *MOSS_RESTRICT values, uint64_t values_count,
    uint8_t *MOSS_RESTRICT arena, uint64_t arena_count, const uint8_t *MOSS_RESTRICT right_marks, uint64_t right_marks_count,
    const uint16_t *MOSS_RESTRICT right_offsets, uint64_t right_offsets_count,
    const uint8_t *MOSS_RESTRICT right_lengths, uint64_t right_lengths_count,
    const uint64_t *MOSS_RESTRICT right_values, uint64_t right_values_count,
    const uint8_t *MOSS_RESTRICT right_arena, uint64_t right_arena_count);
MOSS_CALL moss_answer moss_byte_map_union_prefer_right(uint8_t *MOSS_RESTRICT marks, size_t marks_count,
    uint16_t *MOSS_RESTRICT offsets, size_t offsets_count, uint8_t *MOSS_RESTRICT lengths, size_t lengths_count,
    uint64_t *MOSS_RESTRICT values, size_t values_count, uint8_t *MOSS_RESTRICT arena, size_t arena_count,
    const uint8_t *MOSS_RESTRICT right_marks, size_t right_marks_count,
    const uint16_t *MOSS_RESTRICT right_offsets, size_t right_offsets_count,
    const uint8_t *MOSS_RESTRICT right_lengths, size_t right_lengths_count,
    const uint64_t *MOSS_RESTRICT right_values, size_t right_values_count,
    const uint8_t *MOSS_RESTRICT right_arena, size_t right_arena_count)
{
    moss_answer answer;
    moss_byte_map_union_prefer_right_wide(&answer, marks, marks_count, offsets, offsets_count, lengths, lengths_count, values,
        values_count, arena, arena_count, right_marks, right_marks_count, right_offsets, right_offsets_count, right_lengths,
        right_lengths_count, right_values, right_values_count, right_arena, right_arena_count);
    return answer;
}

moss_answer *moss_byte_map_entry_wide(moss_answer *MOSS_RESTRICT answer, const uint8_t *MOSS_RESTRICT marks, uint64_t marks_count,
    const uint16_t *MOSS_RESTRICT offsets, uint64_t offsets_count, const uint8_t *MOSS_RESTRICT lengths, uint64_t lengths_count,
    const uint64_t *MOSS_RESTRICT values, uint64_t values_count, const uint8_t *MOSS_RESTRICT arena, uint64_t arena_count,
    const uint8_t *MOSS_RESTRICT key, uint64_t key_length);
MOSS_CALL moss_answer moss_byte_map_entry(const uint8_t *MOSS_RESTRICT marks, size_t marks_count,
    const uint16_t *MOSS_RESTRICT offsets, size_t offsets_count, const uint8_t *MOSS_RESTRICT lengths, size_t lengths_count,
    const uint64_t *MOSS_RESTRICT values, size_t values_count, const uint8_t *MOSS_RESTRICT arena, size_t arena_count,
    const uint8_t *MOSS_RESTRICT key, size_t key_length)
{
    moss_answer answer;
    moss_byte_map_entry_wide(&answer, marks, marks_count, offsets, offsets_count, lengths, lengths_count, values, values_count,
        arena, arena_count, key, key_length);
    return answer;
}

moss_answer *moss_byte_map_occupied_get_wide(moss_answer *MOSS_RESTRICT answer,
    const uint8_t *MOSS_RESTRICT marks, uint64_t marks_count, const uint16_t *MOSS_RESTRICT offsets, uint64_t offsets_count,
    const uint8_t *MOSS_RESTRICT lengths, uint64_t lengths_count, const uint64_t *MOSS_RESTRICT values, uint64_t values_count,
    const uint8_t *MOSS_RESTRICT arena, uint64_t arena_count, uint64_t slot, const uint8_t *MOSS_RESTRICT key, uint64_t key_length);
MOSS_CALL moss_answer moss_byte_map_occupied_get(const uint8_t *MOSS_RESTRICT marks, size_t marks_count,
    const uint16_t *MOSS_RESTRICT offsets, size_t offsets_count, const uint8_t *MOSS_RESTRICT lengths, size_t lengths_count,
    const uint64_t *MOSS_RESTRICT values, size_t values_count, const uint8_t *MOSS_RESTRICT arena, size_t arena_count,
    uint64_t slot, const uint8_t *MOSS_RESTRICT key, size_t key_length)
{
    moss_answer answer;
    moss_byte_map_occupied_get_wide(&answer, marks, marks_count, offsets, offsets_count, lengths, lengths_count, values,
        values_count, arena, arena_count, slot, key, key_length);
    return answer;
}

moss_answer *moss_byte_map_occupied_set_wide(moss_answer *MOSS_RESTRICT answer, uint8_t *MOSS_RESTRICT marks, uint64_t marks_count,
    uint16_t *MOSS_RESTRICT offsets, uint64_t offsets_count, uint8_t *MOSS_RESTRICT lengths, uint64_t lengths_count,
    uint64_t *MOSS_RESTRICT values, uint64_t values_count, uint8_t *MOSS_RESTRICT arena, uint64_t arena_count, uint64_t slot,
    const uint8_t *MOSS_RESTRICT key, uint64_t key_length, uint64_t value);
MOSS_CALL moss_answer moss_byte_map_occupied_set(uint8_t *MOSS_RESTRICT marks, size_t marks_count,
    uint16_t *MOSS_RESTRICT offsets, size_t offsets_count, uint8_t *MOSS_RESTRICT lengths, size_t lengths_count,
    uint64_t *MOSS_RESTRICT values, size_t values_count, uint8_t *MOSS_RESTRICT arena, size_t arena_count, uint64_t slot,
    const uint8_t *MOSS_RESTRICT key, size_t key_length, uint64_t value)
{
    moss_answer answer;
    moss_byte_map_occupied_set_wide(&answer, marks, marks_count, offsets, offsets_count, lengths, lengths_count, values,
        values_count, arena, arena_count, slot, key, key_length, value);
    return answer;
}

moss_answer *moss_byte_map_occupied_remove_wide(moss_answer *MOSS_RESTRICT answer,
    uint8_t *MOSS_RESTRICT marks, uint64_t marks_count, uint16_t *MOSS_RESTRICT offsets, uint64_t offsets_count,
    uint8_t *MOSS_RESTRICT lengths, uint64_t lengths_count, uint64_t *MOSS_RESTRICT values, uint64_t values_count,
    uint8_t *MOSS_RESTRICT arena, uint64_t arena_count, uint64_t slot, const uint8_t *MOSS_RESTRICT key, uint64_t key_length);
MOSS_CALL moss_answer moss_byte_map_occupied_remove(uint8_t *MOSS_RESTRICT marks, size_t marks_count,
    uint16_t *MOSS_RESTRICT offsets, size_t offsets_count, uint8_t *MOSS_RESTRICT lengths, size_t lengths_count,
    uint64_t *MOSS_RESTRICT values, size_t values_count, uint8_t *MOSS_RESTRICT arena, size_t arena_count, uint64_t slot,
    const uint8_t *MOSS_RESTRICT key, size_t key_length)
{
    moss_answer answer;
    moss_byte_map_occupied_remove_wide(&answer, marks, marks_count, offsets, offsets_count, lengths, lengths_count, values,
        values_count, arena, arena_count, slot, key, key_length);
    return answer;
}

moss_answer *moss_byte_map_occupied_remove_entry_wide(moss_answer *MOSS_RESTRICT answer,
    uint8_t *MOSS_RESTRICT marks, uint64_t marks_count, uint16_t *MOSS_RESTRICT offsets, uint64_t offsets_count,
    uint8_t *MOSS_RESTRICT lengths, uint64_t lengths_count, uint64_t *MOSS_RESTRICT values, uint64_t values_count,
    uint8_t *MOSS_RESTRICT arena, uint64_t arena_count, uint64_t slot, const uint8_t *MOSS_RESTRICT key, uint64_t key_length);
MOSS_CALL moss_answer moss_byte_map_occupied_remove_entry(uint8_t *MOSS_RESTRICT marks, size_t marks_count,
    uint16_t *MOSS_RESTRICT offsets, size_t offsets_count, uint8_t *MOSS_RESTRICT lengths, size_t lengths_count,
    uint64_t *MOSS_RESTRICT values, size_t values_count, uint8_t *MOSS_RESTRICT arena, size_t arena_count, uint64_t slot,
    const uint8_t *MOSS_RESTRICT key, size_t key_length)
{
    moss_answer answer;
    moss_byte_map_occupied_remove_entry_wide(&answer, marks, marks_count, offsets, offsets_count, lengths, lengths_count, values,
        values_count, arena, arena_count, slot, key, key_length);
    return answer;
}

moss_answer *moss_byte_map_vacant_insert_wide(moss_answer *MOSS_RESTRICT answer, uint8_t *MOSS_RESTRICT marks, uint64_t marks_count,
    uint16_t *MOSS_RESTRICT offsets, uint64_t offsets_count, uint8_t *MOSS_RESTRICT lengths, uint64_t lengths_count,
    uint64_t *MOSS_RESTRICT values, uint64_t values_count, uint8_t *MOSS_RESTRICT arena, uint64_t arena_count, uint64_t slot,
    const uint8_t *MOSS_RESTRICT key, uint64_t key_length, uint64_t value);
MOSS_CALL moss_answer moss_byte_map_vacant_insert(uint8_t *MOSS_RESTRICT marks, size_t marks_count,
    uint16_t *MOSS_RESTRICT offsets, size_t offsets_count, uint8_t *MOSS_RESTRICT lengths, size_t lengths_count,
    uint64_t *MOSS_RESTRICT values, size_t values_count, uint8_t *MOSS_RESTRICT arena, size_t arena_count, uint64_t slot,
    const uint8_t *MOSS_RESTRICT key, size_t key_length, uint64_t value)
{
    moss_answer answer;
    moss_byte_map_vacant_insert_wide(&answer, marks, marks_count, offsets, offsets_count, lengths, lengths_count, values,
        values_count, arena, arena_count, slot, key, key_length, value);
    return answer;
}

moss_answer *moss_byte_map_or_insert_wide(moss_answer *MOSS_RESTRICT answer, uint8_t *MOSS_RESTRICT marks, uint64_t marks_count,
    uint16_t *MOSS_RESTRICT offsets, uint64_t offsets_count, uint8_t *MOSS_RESTRICT lengths, uint64_t lengths_count,
    uint64_t *MOSS_RESTRICT values, uint64_t values_count, uint8_t *MOSS_RESTRICT arena, uint64_t arena_count, uint64_t which,
    uint64_t slot, const uint8_t *MOSS_RESTRICT key, uint64_t key_length, uint64_t value);
MOSS_CALL moss_answer moss_byte_map_or_insert(uint8_t *MOSS_RESTRICT marks, size_t marks_count,
    uint16_t *MOSS_RESTRICT offsets, size_t offsets_count, uint8_t *MOSS_RESTRICT lengths, size_t lengths_count,
    uint64_t *MOSS_RESTRICT values, size_t values_count, uint8_t *MOSS_RESTRICT arena, size_t arena_count, uint64_t which,
    uint64_t slot, const uint8_t *MOSS_RESTRICT key, size_t key_length, uint64_t value)
{
    moss_answer answer;
    moss_byte_map_or_insert_wide(&answer, marks, marks_count, offsets, offsets_count, lengths, lengths_count, values, values_count,
        arena, arena_count, which, slot, key, key_length, value);
    return answer;
}

moss_answer *moss_byte_map_insert_entry_wide(moss_answer *MOSS_RESTRICT answer, uint8_t *MOSS_RESTRICT marks, uint64_t marks_count,
    uint16_t *MOSS_RESTRICT offsets, uint64_t offsets_count, uint8_t *MOSS_RESTRICT lengths, uint64_t lengths_count,
    uint64_t *MOSS_RESTRICT values, uint64_t values_count, uint8_t *MOSS_RESTRICT arena, uint64_t arena_count, uint64_t which,
    uint64_t slot, const uint8_t *MOSS_RESTRICT key, uint64_t key_length, uint64_t value);
MOSS_CALL moss_answer moss_byte_map_insert_entry(uint8_t *MOSS_RESTRICT marks, size_t marks_count,
    uint16_t *MOSS_RESTRICT offsets, size_t offsets_count, uint8_t *MOSS_RESTRICT lengths, size_t lengths_count,
    uint64_t *MOSS_RESTRICT values, size_t values_count, uint8_t *MOSS_RESTRICT arena, size_t arena_count, uint64_t which,
    uint64_t slot, const uint8_t *MOSS_RESTRICT key, size_t key_length, uint64_t value)
{
    moss_answer answer;
    moss_byte_map_insert_entry_wide(&answer, marks, marks_count, offsets, offsets_count, lengths, lengths_count, values,
        values_count, arena, arena_count, which, slot, key, key_length, value);
    return answer;
}

uint64_t moss_byte_map_walk_start_wide(void);
MOSS_CALL uint64_t moss_byte_map_walk_start(void)
{
    return moss_byte_map_walk_start_wide();
}

moss_answer *moss_byte_map_step_wide(moss_answer *MOSS_RESTRICT answer, const uint8_t *MOSS_RESTRICT marks, uint64_t marks_count,
    const uint16_t *MOSS_RESTRICT offsets, uint64_t offsets_count, const uint8_t *MOSS_RESTRICT lengths, uint64_t lengths_count,
    const uint64_t *MOSS_RESTRICT values, uint64_t values_count, const uint8_t *MOSS_RESTRICT arena, uint64_t arena_count,
    uint64_t walk, uint64_t budget);
MOSS_CALL moss_answer moss_byte_map_step(const uint8_t *MOSS_RESTRICT marks, size_t marks_count,
    const uint16_t *MOSS_RESTRICT offsets, size_t offsets_count, const uint8_t *MOSS_RESTRICT lengths, size_t lengths_count,
    const uint64_t *MOSS_RESTRICT values, size_t values_count, const uint8_t *MOSS_RESTRICT arena, size_t arena_count,
    uint64_t walk, uint64_t budget)
{
    moss_answer answer;
    moss_byte_map_step_wide(&answer, marks, marks_count, offsets, offsets_count, lengths, lengths_count, values, values_count,
        arena, arena_count, walk, budget);
    return answer;
}

moss_answer *moss_byte_map_walk_on_wide(moss_answer *MOSS_RESTRICT answer, const uint8_t *MOSS_RESTRICT marks, uint64_t marks_count,
    const uint16_t *MOSS_RESTRICT offsets, uint64_t offsets_count, const uint8_t *MOSS_RESTRICT lengths, uint64_t lengths_count,
    const uint64_t *MOSS_RESTRICT values, uint64_t values_count, const uint8_t *MOSS_RESTRICT arena, uint64_t arena_count,
    uint64_t *MOSS_RESTRICT walk, uint64_t budget);
MOSS_CALL moss_answer moss_byte_map_walk_on(const uint8_t *MOSS_RESTRICT marks, size_t marks_count,
    const uint16_t *MOSS_RESTRICT offsets, size_t offsets_count, const uint8_t *MOSS_RESTRICT lengths, size_t lengths_count,
    const uint64_t *MOSS_RESTRICT values, size_t values_count, const uint8_t *MOSS_RESTRICT arena, size_t arena_count,
    uint64_t *MOSS_RESTRICT walk, uint64_t budget)
{
    moss_answer answer;
    moss_byte_map_walk_on_wide(&answer, marks, marks_count, offsets, offsets_count, lengths, lengths_count, values, values_count,
        arena, arena_count, walk, budget);
    return answer;
}
/* end of wide calls of byte_map */

/* from the list: wide calls of byte_set */
moss_answer *moss_byte_set_make_wide(moss_answer *MOSS_RESTRICT answer, uint8_t *MOSS_RESTRICT marks, uint64_t marks_count,
    uint16_t *MOSS_RESTRICT offsets, uint64_t offsets_count, uint8_t *MOSS_RESTRICT lengths, uint64_t lengths_count,
    uint8_t *MOSS_RESTRICT arena, uint64_t arena_count);
MOSS_CALL moss_answer moss_byte_set_make(uint8_t *MOSS_RESTRICT marks, size_t marks_count,
    uint16_t *MOSS_RESTRICT offsets, size_t offsets_count, uint8_t *MOSS_RESTRICT lengths, size_t lengths_count,
    uint8_t *MOSS_RESTRICT arena, size_t arena_count)
{
    moss_answer answer;
    moss_byte_set_make_wide(&answer, marks, marks_count, offsets, offsets_count, lengths, lengths_count, arena, arena_count);
    return answer;
}

moss_answer *moss_byte_set_clear_wide(moss_answer *MOSS_RESTRICT answer, uint8_t *MOSS_RESTRICT marks, uint64_t marks_count,
    uint16_t *MOSS_RESTRICT offsets, uint64_t offsets_count, uint8_t *MOSS_RESTRICT lengths, uint64_t lengths_count,
    uint8_t *MOSS_RESTRICT arena, uint64_t arena_count);
MOSS_CALL moss_answer moss_byte_set_clear(uint8_t *MOSS_RESTRICT marks, size_t marks_count,
    uint16_t *MOSS_RESTRICT offsets, size_t offsets_count, uint8_t *MOSS_RESTRICT lengths, size_t lengths_count,
    uint8_t *MOSS_RESTRICT arena, size_t arena_count)
{
    moss_answer answer;
    moss_byte_set_clear_wide(&answer, marks, marks_count, offsets, offsets_count, lengths, lengths_count, arena, arena_count);
    return answer;
}

moss_answer *moss_byte_set_capacity_wide(moss_answer *MOSS_RESTRICT answer,
    const uint8_t *MOSS_RESTRICT marks, uint64_t marks_count, const uint16_t *MOSS_RESTRICT offsets, uint64_t offsets_count,
    const uint8_t *MOSS_RESTRICT lengths, uint64_t lengths_count, const uint8_t *MOSS_RESTRICT arena, uint64_t arena_count);
MOSS_CALL moss_answer moss_byte_set_capacity(const uint8_t *MOSS_RESTRICT marks, size_t marks_count,
    const uint16_t *MOSS_RESTRICT offsets, size_t offsets_count, const uint8_t *MOSS_RESTRICT lengths, size_t lengths_count,
    const uint8_t *MOSS_RESTRICT arena, size_t arena_count)
{
    moss_answer answer;
    moss_byte_set_capacity_wide(&answer, marks, marks_count, offsets, offsets_count, lengths, lengths_count, arena, arena_count);
    return answer;
}

moss_answer *moss_byte_set_len_wide(moss_answer *MOSS_RESTRICT answer, const uint8_t *MOSS_RESTRICT marks, uint64_t marks_count,
    const uint16_t *MOSS_RESTRICT offsets, uint64_t offsets_count, const uint8_t *MOSS_RESTRICT lengths, uint64_t lengths_count,
    const uint8_t *MOSS_RESTRICT arena, uint64_t arena_count);
MOSS_CALL moss_answer moss_byte_set_len(const uint8_t *MOSS_RESTRICT marks, size_t marks_count,
    const uint16_t *MOSS_RESTRICT offsets, size_t offsets_count, const uint8_t *MOSS_RESTRICT lengths, size_t lengths_count,
    const uint8_t *MOSS_RESTRICT arena, size_t arena_count)
{
    moss_answer answer;
    moss_byte_set_len_wide(&answer, marks, marks_count, offsets, offsets_count, lengths, lengths_count, arena, arena_count);
    return answer;
}

moss_answer *moss_byte_set_is_empty_wide(moss_answer *MOSS_RESTRICT answer,
    const uint8_t *MOSS_RESTRICT marks, uint64_t marks_count, const uint16_t *MOSS_RESTRICT offsets, uint64_t offsets_count,
    const uint8_t *MOSS_RESTRICT lengths, uint64_t lengths_count, const uint8_t *MOSS_RESTRICT arena, uint64_t arena_count);
MOSS_CALL moss_answer moss_byte_set_is_empty(const uint8_t *MOSS_RESTRICT marks, size_t marks_count,
    const uint16_t *MOSS_RESTRICT offsets, size_t offsets_count, const uint8_t *MOSS_RESTRICT lengths, size_t lengths_count,
    const uint8_t *MOSS_RESTRICT arena, size_t arena_count)
{
    moss_answer answer;
    moss_byte_set_is_empty_wide(&answer, marks, marks_count, offsets, offsets_count, lengths, lengths_count, arena, arena_count);
    return answer;
}

moss_answer *moss_byte_set_reserve_wide(moss_answer *MOSS_RESTRICT answer, const uint8_t *MOSS_RESTRICT marks, uint64_t marks_count,
    const uint16_t *MOSS_RESTRICT offsets, uint64_t offsets_count, const uint8_t *MOSS_RESTRICT lengths, uint64_t lengths_count,
    const uint8_t *MOSS_RESTRICT arena, uint64_t arena_count, uint64_t keys, uint64_t bytes);
MOSS_CALL moss_answer moss_byte_set_reserve(const uint8_t *MOSS_RESTRICT marks, size_t marks_count,
    const uint16_t *MOSS_RESTRICT offsets, size_t offsets_count, const uint8_t *MOSS_RESTRICT lengths, size_t lengths_count,
    const uint8_t *MOSS_RESTRICT arena, size_t arena_count, uint64_t keys, uint64_t bytes)
{
    moss_answer answer;
    moss_byte_set_reserve_wide(&answer, marks, marks_count, offsets, offsets_count, lengths, lengths_count, arena, arena_count,
        keys, bytes);
    return answer;
}

moss_answer *moss_byte_set_get_wide(moss_answer *MOSS_RESTRICT answer, const uint8_t *MOSS_RESTRICT marks, uint64_t marks_count,
    const uint16_t *MOSS_RESTRICT offsets, uint64_t offsets_count, const uint8_t *MOSS_RESTRICT lengths, uint64_t lengths_count,
    const uint8_t *MOSS_RESTRICT arena, uint64_t arena_count, const uint8_t *MOSS_RESTRICT key, uint64_t key_length);
MOSS_CALL moss_answer moss_byte_set_get(const uint8_t *MOSS_RESTRICT marks, size_t marks_count,
    const uint16_t *MOSS_RESTRICT offsets, size_t offsets_count, const uint8_t *MOSS_RESTRICT lengths, size_t lengths_count,
    const uint8_t *MOSS_RESTRICT arena, size_t arena_count, const uint8_t *MOSS_RESTRICT key, size_t key_length)
{
    moss_answer answer;
    moss_byte_set_get_wide(&answer, marks, marks_count, offsets, offsets_count, lengths, lengths_count, arena, arena_count, key,
        key_length);
    return answer;
}

moss_answer *moss_byte_set_contains_wide(moss_answer *MOSS_RESTRICT answer,
    const uint8_t *MOSS_RESTRICT marks, uint64_t marks_count, const uint16_t *MOSS_RESTRICT offsets, uint64_t offsets_count,
    const uint8_t *MOSS_RESTRICT lengths, uint64_t lengths_count, const uint8_t *MOSS_RESTRICT arena, uint64_t arena_count,
    const uint8_t *MOSS_RESTRICT key, uint64_t key_length);
MOSS_CALL moss_answer moss_byte_set_contains(const uint8_t *MOSS_RESTRICT marks, size_t marks_count,
    const uint16_t *MOSS_RESTRICT offsets, size_t offsets_count, const uint8_t *MOSS_RESTRICT lengths, size_t lengths_count,
    const uint8_t *MOSS_RESTRICT arena, size_t arena_count, const uint8_t *MOSS_RESTRICT key, size_t key_length)
{
    moss_answer answer;
    moss_byte_set_contains_wide(&answer, marks, marks_count, offsets, offsets_count, lengths, lengths_count, arena, arena_count,
        key, key_length);
    return answer;
}

moss_answer *moss_byte_set_insert_wide(moss_answer *MOSS_RESTRICT answer, uint8_t *MOSS_RESTRICT marks, uint64_t marks_count,
    uint16_t *MOSS_RESTRICT offsets, uint64_t offsets_count, uint8_t *MOSS_RESTRICT lengths, uint64_t lengths_count,
    uint8_t *MOSS_RESTRICT arena, uint64_t arena_count, const uint8_t *MOSS_RESTRICT key, uint64_t key_length);
MOSS_CALL moss_answer moss_byte_set_insert(uint8_t *MOSS_RESTRICT marks, size_t marks_count,
    uint16_t *MOSS_RESTRICT offsets, size_t offsets_count, uint8_t *MOSS_RESTRICT lengths, size_t lengths_count,
    uint8_t *MOSS_RESTRICT arena, size_t arena_count, const uint8_t *MOSS_RESTRICT key, size_t key_length)
{
    moss_answer answer;
    moss_byte_set_insert_wide(&answer, marks, marks_count, offsets, offsets_count, lengths, lengths_count, arena, arena_count, key,
        key_length);
    return answer;
}

moss_answer *moss_byte_set_remove_wide(moss_answer *MOSS_RESTRICT answer, uint8_t *MOSS_RESTRICT marks, uint64_t marks_count,
    uint16_t *MOSS_RESTRICT offsets, uint64_t offsets_count, uint8_t *MOSS_RESTRICT lengths, uint64_t lengths_count,
    uint8_t *MOSS_RESTRICT arena, uint64_t arena_count, const uint8_t *MOSS_RESTRICT key, uint64_t key_length);
MOSS_CALL moss_answer moss_byte_set_remove(uint8_t *MOSS_RESTRICT marks, size_t marks_count,
    uint16_t *MOSS_RESTRICT offsets, size_t offsets_count, uint8_t *MOSS_RESTRICT lengths, size_t lengths_count,
    uint8_t *MOSS_RESTRICT arena, size_t arena_count, const uint8_t *MOSS_RESTRICT key, size_t key_length)
{
    moss_answer answer;
    moss_byte_set_remove_wide(&answer, marks, marks_count, offsets, offsets_count, lengths, lengths_count, arena, arena_count, key,
        key_length);
    return answer;
}

moss_answer *moss_byte_set_copy_wide(moss_answer *MOSS_RESTRICT answer, uint8_t *MOSS_RESTRICT to_marks, uint64_t to_marks_count,
    uint16_t *MOSS_RESTRICT to_offsets, uint64_t to_offsets_count, uint8_t *MOSS_RESTRICT to_lengths, uint64_t to_lengths_count,
    uint8_t *MOSS_RESTRICT to_arena, uint64_t to_arena_count, const uint8_t *MOSS_RESTRICT marks, uint64_t marks_count,
    const uint16_t *MOSS_RESTRICT offsets, uint64_t offsets_count, const uint8_t *MOSS_RESTRICT lengths, uint64_t lengths_count,
    const uint8_t *MOSS_RESTRICT arena, uint64_t arena_count);
MOSS_CALL moss_answer moss_byte_set_copy(uint8_t *MOSS_RESTRICT to_marks, size_t to_marks_count,
    uint16_t *MOSS_RESTRICT to_offsets, size_t to_offsets_count, uint8_t *MOSS_RESTRICT to_lengths, size_t to_lengths_count,
    uint8_t *MOSS_RESTRICT to_arena, size_t to_arena_count, const uint8_t *MOSS_RESTRICT marks, size_t marks_count,
    const uint16_t *MOSS_RESTRICT offsets, size_t offsets_count, const uint8_t *MOSS_RESTRICT lengths, size_t lengths_count,
    const uint8_t *MOSS_RESTRICT arena, size_t arena_count)
{
    moss_answer answer;
    moss_byte_set_copy_wide(&answer, to_marks, to_marks_count, to_offsets, to_offsets_count, to_lengths, to_lengths_count, to_arena,
        to_arena_count, marks, marks_count, offsets, offsets_count, lengths, lengths_count, arena, arena_count);
    return answer;
}

uint64_t moss_byte_set_walk_start_wide(void);
MOSS_CALL uint64_t moss_byte_set_walk_start(void)
{
    return moss_byte_set_walk_start_wide();
}

moss_answer *moss_byte_set_step_wide(moss_answer *MOSS_RESTRICT answer, const uint8_t *MOSS_RESTRICT marks, uint64_t marks_count,
    const uint16_t *MOSS_RESTRICT offsets, uint64_t offsets_count, const uint8_t *MOSS_RESTRICT lengths, uint64_t lengths_count,
    const uint8_t *MOSS_RESTRICT arena, uint64_t arena_count, uint64_t walk, uint64_t budget);
MOSS_CALL moss_answer moss_byte_set_step(const uint8_t *MOSS_RESTRICT marks, size_t marks_count,
    const uint16_t *MOSS_RESTRICT offsets, size_t offsets_count, const uint8_t *MOSS_RESTRICT lengths, size_t lengths_count,
    const uint8_t *MOSS_RESTRICT arena, size_t arena_count, uint64_t walk, uint64_t budget)
{
    moss_answer answer;
    moss_byte_set_step_wide(&answer, marks, marks_count, offsets, offsets_count, lengths, lengths_count, arena, arena_count, walk,
        budget);
    return answer;
}

moss_answer *moss_byte_set_walk_on_wide(moss_answer *MOSS_RESTRICT answer, const uint8_t *MOSS_RESTRICT marks, uint64_t marks_count,
    const uint16_t *MOSS_RESTRICT offsets, uint64_t offsets_count, const uint8_t *MOSS_RESTRICT lengths, uint64_t lengths_count,
    const uint8_t *MOSS_RESTRICT arena, uint64_t arena_count, uint64_t *MOSS_RESTRICT walk, uint64_t budget);
MOSS_CALL moss_answer moss_byte_set_walk_on(const uint8_t *MOSS_RESTRICT marks, size_t marks_count,
    const uint16_t *MOSS_RESTRICT offsets, size_t offsets_count, const uint8_t *MOSS_RESTRICT lengths, size_t lengths_count,
    const uint8_t *MOSS_RESTRICT arena, size_t arena_count, uint64_t *MOSS_RESTRICT walk, uint64_t budget)
{
    moss_answer answer;
    moss_byte_set_walk_on_wide(&answer, marks, marks_count, offsets, offsets_count, lengths, lengths_count, arena, arena_count,
        walk, budget);
    return answer;
}
/* end of wide calls of byte_set */
#endif

#ifdef __cplusplus
}
#endif

#endif
