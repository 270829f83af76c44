/* What a program does on refusal 5. A mark that no call wrote says that the memory was overwritten: nothing in the table is to be trusted,
 * also what the call did not look at. So it is made anew and filled from where its contents came. */
#include "mosspillow.h"

#include <inttypes.h>
#include <stdio.h>

MOSS_INT_MAP(curves, 8);

/* The table's contents, as they stand in flash. */
static int fill(void)
{
    static const struct {
        uint64_t chemistry, metres;
    } factory[] = {{1, 110}, {2, 95}, {3, 120}};
    if (moss_im_make(&curves).refusal != 0)
        return 0;
    for (size_t i = 0; i < sizeof factory / sizeof factory[0]; i++)
        if (moss_im_insert(&curves, factory[i].chemistry, factory[i].metres).refusal != 0)
            return 0;
    return 1;
}

/* The metres of a chemistry, from a table that is made anew where it was found damaged. */
static moss_answer metres(uint64_t chemistry)
{
    moss_answer found = moss_im_get(&curves, chemistry);
    if (found.refusal == MOSS_REFUSED_DAMAGED) {
        printf("table damaged, made anew\n");
        if (fill())
            found = moss_im_get(&curves, chemistry);
    }
    return found;
}

static void show(uint64_t chemistry)
{
    moss_answer found = metres(chemistry);
    if (found.refusal != 0)
        printf("chemistry %" PRIu64 ": unknown, %s\n", chemistry, moss_refusal_name(found.refusal));
    else if (found.which == MOSS_ABSENT)
        printf("chemistry %" PRIu64 ": no curve\n", chemistry);
    else
        printf("chemistry %" PRIu64 ": %" PRIu64 " m\n", chemistry, found.value);
}

int main(void)
{
    if (!fill())
        return 1;
    show(2);
    for (size_t i = 0; i < curves.slots; i++) /* something else writes into the marks */
        curves.marks[i] = 77;
    show(2);
    show(9);
    return 0;
}
