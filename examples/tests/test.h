/* For the tests of include/deblock.h. */
#include <stdio.h>

#include "station.h"

/* How often something was not as it must be. */
static int faults;

static void expect(const char *what, uint32_t want, uint32_t got)
{
    if (got == want)
        return;
    fprintf(stderr, "%s: %u, not %u\n", what, (unsigned)got, (unsigned)want);
    faults++;
}
