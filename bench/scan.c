/* Choices and returns a second by a plain scan of arrays: what `bench book` does, without a journal.
 *
 *     cc -O2 -o scan bench/scan.c && ./scan 1000000
 *
 * Of the usable members the one with the least distance is chosen, of equal ones that with the least load, of equal ones
 * the first in turn after the member that was chosen last. A choice adds a member's unit to its load.
 */
#include <stdint.h>
#include <stdio.h>
#include <stdlib.h>
#include <time.h>

enum { MOST = 64, POOL = 64 };

struct member {
    uint32_t distance, busy, unit;
    uint64_t load;
};

static struct member members[MOST];
static unsigned count, last;

static int goes_before(unsigned a, unsigned b)
{
    const struct member *x = &members[a], *y = &members[b];
    if (x->distance != y->distance)
        return x->distance < y->distance;
    if (x->load != y->load)
        return x->load < y->load;
    return (a + count - last - 1) % count < (b + count - last - 1) % count;
}

static unsigned choose(void)
{
    unsigned best = count;
    for (unsigned m = 0; m < count; m++)
        if (members[m].busy < POOL && (best == count || goes_before(m, best)))
            best = m;
    members[best].busy++;
    members[best].load += members[best].unit;
    last = best;
    return best;
}

static double seconds(void)
{
    struct timespec now;
    clock_gettime(CLOCK_MONOTONIC, &now);
    return now.tv_sec + now.tv_nsec / 1e9;
}

int main(int argc, char **argv)
{
    static const unsigned sizes[] = {2, 8, 64};
    unsigned long rounds = argc > 1 ? strtoul(argv[1], NULL, 10) : 1000;
    for (unsigned i = 0; i < 3; i++) {
        count = sizes[i];
        last = count - 1;
        for (unsigned m = 0; m < count; m++)
            members[m] = (struct member){0, 0, 6 / (m % 3 + 1), 0};
        double start = seconds();
        for (unsigned long r = 0; r < rounds; r++)
            members[choose()].busy--;
        printf("%u members: %.0f holds a second\n", count, 2 * rounds / (seconds() - start));
    }
    return 0;
}
