/* How often each label was read: entry finds the label's place once, or_insert puts a first 0 there, and the occupied handle counts on. */
#include "mosspillow.h"

#include <inttypes.h>
#include <stdio.h>
#include <string.h>

MOSS_BYTE_MAP(counts, 4, 24);

/* One more for a label; the answer is refused where there is no room for it. */
static moss_answer count(const char *label)
{
    const uint8_t *key = (const uint8_t *)label;
    size_t length = strlen(label);
    moss_answer place = moss_bm_entry(&counts, key, length);
    if (place.refusal != 0)
        return place;
    moss_answer now = moss_bm_or_insert(&counts, place.which, place.slot, key, length, 0);
    if (now.refusal != 0)
        return now;
    return moss_bm_occupied_set(&counts, now.slot, key, length, now.value + 1);
}

int main(void)
{
    static const char *const read[] = {"left", "right", "left", "trunk", "left", "right", "spare", "roof"};
    moss_answer pair;
    for (size_t i = 0; i < sizeof read / sizeof read[0]; i++) {
        moss_answer counted = count(read[i]);
        if (counted.refusal != 0)
            printf("%s: not counted, %s\n", read[i], moss_refusal_name(counted.refusal));
    }
    MOSS_WALK (bm, &counts, pair)
        printf("%.*s %" PRIu64 "\n", (int)pair.length, (const char *)counts.arena + pair.offset, pair.value);
    return pair.refusal != 0;
}
