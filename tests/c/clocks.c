/* The order of clocks from C. Standard input has a case a line, base ext other_base other_ext answer, with the answers
 * of tests/replay/clocks.py. Each is also tried with the readings exchanged, and with both shifted by one amount of
 * ticks. The first difference ends the program with exit 1.
 */
#include <inttypes.h>
#include <stdio.h>
#include <stdlib.h>
#include "sat_ledger.h"

_Static_assert(SAT_CLOCK_SAME == 0 && SAT_CLOCK_EARLIER == 1, "numbers of S-14's answers");
_Static_assert(SAT_CLOCK_LATER == 2 && SAT_CLOCK_OPPOSITE == 3, "numbers of S-14's answers");

#define TURN 2576980377600u

static unsigned long line, calls, counts[4];

struct reading {
    uint64_t base;
    uint16_t ext;
};

static void check(struct reading a, struct reading b, uint32_t wanted, const char *what)
{
    uint32_t got = sat_clock_order(a.base, a.ext, b.base, b.ext);
    calls++;
    if (got != wanted) {
        printf("line %lu, %s: (%" PRIu64 ", %u) and (%" PRIu64 ", %u) give %" PRIu32 ", not %" PRIu32 "\n", line, what,
               a.base, a.ext, b.base, b.ext, got, wanted);
        exit(1);
    }
}

static uint64_t ticks_of(struct reading r)
{
    return (300 * (r.base & 0x1ffffffff) + (r.ext & 0x1ff)) % TURN;
}

/* the reading that stands so many ticks further on, less full turns */
static struct reading shifted(struct reading r, uint64_t by)
{
    uint64_t ticks = (ticks_of(r) + by) % TURN;
    return (struct reading){ticks / 300, (uint16_t)(ticks % 300)};
}

static void try_pair(struct reading a, struct reading b, uint32_t answer)
{
    /* the last two bring the first reading to 0, and to the last tick of a turn */
    uint64_t to_0 = TURN - ticks_of(a);
    uint64_t shifts[] = {0, 1, 299, 300, TURN / 2, TURN - 300, TURN - 1, to_0, to_0 + TURN - 1};
    uint32_t turned = answer == SAT_CLOCK_EARLIER ? SAT_CLOCK_LATER : SAT_CLOCK_EARLIER;
    if (answer == SAT_CLOCK_SAME || answer == SAT_CLOCK_OPPOSITE)
        turned = answer;
    check(a, b, answer, "as given");
    check(b, a, turned, "exchanged");
    for (size_t i = 0; i < sizeof shifts / sizeof *shifts; i++)
        check(shifted(a, shifts[i]), shifted(b, shifts[i]), answer, "shifted");
}

int main(void)
{
    struct reading a, b;
    uint32_t answer;
    const char *form = "%" SCNu64 "%" SCNu16 "%" SCNu64 "%" SCNu16 "%" SCNu32;
    int n;
    while ((n = scanf(form, &a.base, &a.ext, &b.base, &b.ext, &answer)) == 5 && answer < 4) {
        line++;
        counts[answer]++;
        try_pair(a, b, answer);
    }
    if (n != EOF || line == 0) {
        printf("line %lu is no case\n", line + 1);
        return 1;
    }
    printf("order of clocks: %lu pairs (%lu same, %lu earlier, %lu later, %lu opposite), %lu calls, 0 differences\n",
           line, counts[0], counts[1], counts[2], counts[3], calls);
    return 0;
}
