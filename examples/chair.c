/* The battery display of a powered chair. A range is shown only where the pack and its discharge curve were found; what is absent is
 * said to be absent. The packs are listed by a walk of two slots at a time, with other work in between. */
#include "mosspillow.h"

#include <inttypes.h>
#include <stdio.h>
#include <stdlib.h>
#include <string.h>

#define TEXT(words) (const uint8_t *)(words), strlen(words)

MOSS_INT_MAP(curves, 8);      /* chemistry byte -> metres for each percent of charge */
MOSS_BYTE_MAP(packs, 8, 40);  /* label -> chemistry byte and percent of charge */

/* The answer of a call that must not be refused here; else the program says why it ends. */
static moss_answer must(moss_answer answer)
{
    if (answer.refusal != 0) {
        printf("refused: %s\n", moss_refusal_name(answer.refusal));
        exit(1);
    }
    return answer;
}

static uint64_t pack(uint64_t chemistry, uint64_t percent)
{
    return chemistry << 8 | percent;
}

static void show_range(uint64_t found)
{
    uint64_t chemistry = found >> 8, percent = found & 255;
    moss_answer curve = moss_im_get(&curves, chemistry);
    if (curve.refusal != 0)
        printf("curves refused %" PRIu64 "\n", curve.refusal);
    else if (curve.which == MOSS_ABSENT)
        printf("no curve for chemistry %" PRIu64 ", range unknown\n", chemistry);
    else
        printf("%" PRIu64 " m\n", curve.value * percent);
}

static void show(const char *label)
{
    moss_answer found = moss_bm_get(&packs, TEXT(label));
    printf("%s: ", label);
    if (found.refusal != 0)
        printf("packs refused %" PRIu64 "\n", found.refusal);
    else if (found.which == MOSS_ABSENT)
        printf("no such pack\n");
    else
        show_range(found.value);
}

/* One turn of the list: at most two slots are looked at. */
static moss_answer list_some(uint64_t walk)
{
    moss_answer step = must(moss_bm_step(&packs, walk, 2));
    if (step.which == MOSS_PAIR)
        printf("listed %.*s\n", (int)step.length, (const char *)packs.arena + step.offset);
    return step;
}

int main(void)
{
    must(moss_im_insert(&curves, 1, 110));
    must(moss_im_insert(&curves, 2, 95));
    must(moss_bm_insert(&packs, TEXT("left"), pack(1, 64)));
    must(moss_bm_insert(&packs, TEXT("right"), pack(7, 100)));
    show("left");
    show("right");
    show("spare");

    moss_answer step = list_some(moss_byte_map_walk_start());
    must(moss_bm_remove(&packs, TEXT("right")));
    must(moss_bm_insert(&packs, TEXT("trunk"), pack(2, 50)));
    while (step.which != MOSS_WALK_DONE)
        step = list_some(step.walk);
    show("right");
    show("trunk");
    printf("%" PRIu64 " packs\n", must(moss_bm_len(&packs)).value);
    return 0;
}
