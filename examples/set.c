/* A set of the faults that a module has reported: each is shown the first time it comes, and counted once. */
#include "mosspillow.h"

#include <inttypes.h>
#include <stdio.h>

MOSS_INT_SET(faults, 8);

static int report(uint64_t fault)
{
    moss_answer added = moss_is_insert(&faults, fault);
    if (added.refusal != 0) {
        printf("fault %" PRIu64 ": not noted, %s\n", fault, moss_refusal_name(added.refusal));
        return 1;
    }
    printf("fault %" PRIu64 ": %s\n", fault, added.which == MOSS_FRESH ? "new" : "known");
    return 0;
}

int main(void)
{
    static const uint64_t reported[] = {17, 4, 17, 300, 4};
    moss_answer each, count;
    int failed = 0;
    for (size_t i = 0; i < sizeof reported / sizeof reported[0]; i++)
        failed |= report(reported[i]);
    MOSS_WALK (is, &faults, each)
        printf("noted %" PRIu64 " in slot %" PRIu64 "\n", each.key, each.walk - 1);
    count = moss_is_len(&faults);
    printf("%" PRIu64 " faults\n", count.value);
    return failed || each.refusal != 0 || count.refusal != 0;
}
