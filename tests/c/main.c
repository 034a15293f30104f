/* The archive against the header, the paper's sums and a second implementation. Ends with 1 if anything differs. */
#include "pair.h"
#include "random.h"
#include "refusals.h"
#include "sums.h"

#include <stdio.h>

int main(void)
{
    unsigned sums = run_sums();
    unsigned refusals = run_refusals();
    run_edges();
    unsigned long random_calls = run_random(120000);

    printf("C calls: %u sums, %u refusal numbers, %lu random calls compared, %lu differences\n", sums, refusals, random_calls, differences);
    printf("random answers:");
    for (unsigned number = 0; number < ANSWERS; number++)
        if (answered[number] != 0)
            printf(" %u: %lu", number, answered[number]);
    printf("\n");
    return differences != 0;
}
