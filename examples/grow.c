/* A table that is full is carried over to a larger one: union puts all its pairs in, or none. */
#include "mosspillow.h"

#include <inttypes.h>
#include <stdio.h>

MOSS_INT_MAP(small, 4);
MOSS_INT_MAP(large, 16);

int main(void)
{
    const moss_int_map *table = &small;
    for (uint64_t key = 1; key <= 6; key++) {
        moss_answer put = moss_im_insert(table, key, 100 * key);
        if (put.refusal == MOSS_REFUSED_NO_SLOT && table == &small) {
            moss_answer carried = moss_im_union_prefer_right(&large, &small);
            if (carried.refusal != 0) {
                printf("not carried over: %s\n", moss_refusal_name(carried.refusal));
                return 1;
            }
            printf("full at key %" PRIu64 ", carried over\n", key);
            table = &large;
            put = moss_im_insert(table, key, 100 * key);
        }
        if (put.refusal != 0)
            return 1;
    }
    moss_answer length = moss_im_len(table), slots = moss_im_capacity(table);
    if (length.refusal != 0 || slots.refusal != 0)
        return 1;
    printf("%" PRIu64 " keys in %" PRIu64 " slots\n", length.value, slots.value);
    for (uint64_t key = 1; key <= 7; key++) {
        moss_answer found = moss_im_get(table, key);
        if (found.refusal != 0)
            return 1;
        if (found.which == MOSS_FOUND)
            printf("%" PRIu64 " -> %" PRIu64 "\n", key, found.value);
        else
            printf("%" PRIu64 " is not there\n", key);
    }
    return 0;
}
