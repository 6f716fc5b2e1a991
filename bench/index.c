/* What a hold of a Book costs by how it finds the member: nanoseconds a hold, the mean of choices and returns.
 *
 *     cc -O2 -o index bench/index.c && ./index 500000
 *
 * rows:   a pass over the rows, each tested and compared, as a Book does today
 * turn:   the same rows in turn, the weight of the best so far kept in hand
 * order:  an index that keeps the members in the order of their weights, and a set of the usable ones
 * set:    an index that keeps weights alone, and a set of the usable ones
 *
 * Every hold adds an entry to a journal that grows, as a Book does. The indexes halve a load when it is looked at.
 */
#include <stdint.h>
#include <stdio.h>
#include <stdlib.h>
#include <string.h>
#include <time.h>

typedef unsigned __int128 load_t;
enum { MOST = 64, ROUND = 65536, NONE = -1 };
enum state { OK, ERROR, RECOVER, PROBE };

struct row {
    uint64_t state, since;
    load_t load;
    uint32_t busy, pool, unit, activation, factor, distance, redirects, redirect;
};

struct ask { uint64_t tried, disabled, stopped; };
struct entry { uint64_t seq, at, session, call[7], answer[4]; };
struct weight { load_t load; uint64_t stamp; uint32_t distance; };

static struct row rows[MOST];
static struct weight weights[MOST];
static unsigned order[MOST];
static uint64_t halvings, roomy;
static unsigned count;
static int last;
static struct entry *entries;
static uint64_t (*returned)[2];
static size_t kept, room;

static int usable(const struct row *r, const struct ask *a, unsigned m)
{
    unsigned counted = r->activation;
    if (counted == 0)
        counted = a->stopped >> m & 1 ? 2 : a->disabled >> m & 1 ? 1 : 0;
    return (r->state == OK || r->state == RECOVER) && !(a->tried >> m & 1) && r->busy < r->pool && counted == 0;
}

static unsigned place(unsigned begin, unsigned m) { return m < begin ? m + count : m; }

static int before(unsigned a, unsigned b, unsigned begin)
{
    const struct row *x = &rows[a], *y = &rows[b];
    if (x->distance != y->distance)
        return x->distance < y->distance;
    if (x->load != y->load)
        return x->load < y->load;
    return place(begin, a) < place(begin, b);
}

static __attribute__((noinline)) int by_rows(const struct ask *a)
{
    int best = NONE;
    for (unsigned m = 0; m < count; m++)
        if (usable(&rows[m], a, m) && (best == NONE || before(m, best, last + 1)))
            best = m;
    return best;
}

static __attribute__((noinline)) int by_turn(const struct ask *a)
{
    unsigned begin = last + 1, m = begin < count ? begin : 0;
    int best = NONE;
    uint32_t distance = 0;
    load_t load = 0;
    for (unsigned i = 0; i < count; i++, m = m + 1 < count ? m + 1 : 0) {
        const struct row *r = &rows[m];
        if (best != NONE && (r->distance > distance || (r->distance == distance && r->load >= load)))
            continue;
        if (!usable(r, a, m))
            continue;
        best = m;
        distance = r->distance;
        load = r->load;
    }
    return best;
}

static load_t now(const struct weight *w)
{
    uint64_t times = halvings - w->stamp;
    return times < 128 ? w->load >> times : 0;
}

static uint64_t set_of(const struct ask *a) { return roomy & ~a->tried & ~a->disabled & ~a->stopped; }

static __attribute__((noinline)) int by_order(uint64_t set)
{
    int best = NONE;
    uint32_t distance = 0;
    load_t load = 0;
    for (unsigned i = 0; i < count; i++) {
        unsigned m = order[i];
        if (best != NONE && (weights[m].distance != distance || now(&weights[m]) != load))
            break;
        if (!(set >> m & 1) || (best != NONE && place(last + 1, best) < place(last + 1, m)))
            continue;
        best = m;
        distance = weights[m].distance;
        load = now(&weights[m]);
    }
    return best;
}

static __attribute__((noinline)) int by_set(uint64_t set)
{
    unsigned begin = last + 1;
    uint64_t high = begin < 64 ? set & ~(uint64_t)0 << begin : 0, low = set & ~high;
    int best = NONE;
    uint32_t distance = 0;
    load_t load = 0;
    for (int part = 0; part < 2; part++)
        for (uint64_t left = part ? low : high; left; left &= left - 1) {
            unsigned m = __builtin_ctzll(left);
            load_t own = now(&weights[m]);
            if (best == NONE || weights[m].distance < distance || (weights[m].distance == distance && own < load)) {
                best = m;
                distance = weights[m].distance;
                load = own;
            }
        }
    return best;
}

static int lighter(const struct weight *a, const struct weight *b)
{
    return a->distance != b->distance ? a->distance < b->distance : now(a) < now(b);
}

static void put(unsigned m, int ordered)
{
    unsigned i = 0;
    weights[m] = (struct weight){rows[m].load, halvings, rows[m].distance};
    if (!ordered)
        return;
    while (order[i] != m)
        i++;
    for (; i + 1 < count && lighter(&weights[order[i + 1]], &weights[m]); i++)
        order[i] = order[i + 1];
    for (; i > 0 && lighter(&weights[m], &weights[order[i - 1]]); i--)
        order[i] = order[i - 1];
    order[i] = m;
}

static void add(uint64_t call, uint64_t member)
{
    struct entry e = {.seq = kept, .call = {call, member}};
    if (kept + 2 > room) {
        room = room ? room * 2 : 64;
        entries = realloc(entries, room * sizeof *entries);
        returned = realloc(returned, room * sizeof *returned);
    }
    if (!entries || !returned)
        exit(1);
    entries[kept] = e;
    memset(returned[kept++], 0, sizeof *returned);
}

enum way { ROWS, TURN, ORDER, SET, WAYS };

static void hold_twice(enum way way, const struct ask *a)
{
    int m = way == ROWS ? by_rows(a) : way == TURN ? by_turn(a) : way == ORDER ? by_order(set_of(a)) : by_set(set_of(a));
    rows[m].busy++;
    rows[m].load += rows[m].unit;
    if (way >= ORDER) {
        put(m, way == ORDER);
        if (rows[m].busy == rows[m].pool)
            roomy &= ~((uint64_t)1 << m);
    }
    last = m;
    add(0, m);
    returned[kept - 1][0] = 1;
    returned[kept - 1][1] = kept;
    rows[m].busy--;
    roomy |= (uint64_t)1 << m;
    add(1, kept - 1);
}

static void begin(unsigned members)
{
    count = members;
    last = NONE;
    kept = halvings = 0;
    roomy = members < 64 ? ((uint64_t)1 << members) - 1 : ~(uint64_t)0;
    for (unsigned m = 0; m < members; m++) {
        rows[m] = (struct row){.pool = 64, .unit = 6 / (m % 3 + 1)};
        weights[m] = (struct weight){0, 0, 0};
        order[m] = m;
    }
}

static double seconds(void)
{
    struct timespec spent;
    clock_gettime(CLOCK_THREAD_CPUTIME_ID, &spent);
    return spent.tv_sec + spent.tv_nsec / 1e9;
}

/* The least of some runs, each in a journal that keeps about as many entries. */
static double cost(enum way way, unsigned members, size_t entries_kept, unsigned long rounds)
{
    struct ask a = {0, 0, 0};
    double best = 1e9;
    for (int run = 0; run < 7; run++) {
        begin(members);
        while (kept < entries_kept)
            hold_twice(way, &a);
        double start = seconds();
        for (unsigned long r = 0; r < rounds; r++) {
            if (kept > entries_kept + ROUND)
                kept = entries_kept;
            hold_twice(way, &a);
        }
        double took = (seconds() - start) / (2 * rounds) * 1e9;
        if (took < best)
            best = took;
    }
    return best;
}

int main(int argc, char **argv)
{
    static const unsigned sizes[] = {2, 8, 16, 64};
    static const size_t lengths[] = {0, 1000000};
    static const char *const names[] = {"rows", "turn", "order", "set"};
    unsigned long rounds = argc > 1 ? strtoul(argv[1], NULL, 10) : 1000;
    for (int s = 0; s < 4; s++)
        for (int l = 0; l < 2; l++) {
            printf("%2u members, %7zu entries kept:", sizes[s], lengths[l]);
            for (enum way way = ROWS; way < WAYS; way++)
                printf("  %s %.0f", names[way], cost(way, sizes[s], lengths[l], rounds));
            printf("\n");
            fflush(stdout);
        }
    return 0;
}
