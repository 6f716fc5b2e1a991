/* How many times a second so many bytes are copied by a plain loop into memory that is taken for them: what writing a
   packet, or reading one, costs at least. Beside `bench ajp`, whose bytes are those of its small round.

       cc -O2 -o ajp_copy bench/ajp_copy.c && ./ajp_copy 1000000 8392 */
#include <stdio.h>
#include <stdlib.h>
#include <time.h>

static void copy(unsigned char *to, const unsigned char *from, size_t n)
{
    for (size_t i = 0; i < n; i++)
        to[i] = from[i];
}

int main(int argc, char **argv)
{
    long rounds = argc > 1 ? atol(argv[1]) : 1;
    size_t size = argc > 2 ? (size_t)atol(argv[2]) : 8392;
    unsigned char *bytes = calloc(1, size);
    struct timespec start, end;
    unsigned long sum = 0;
    if (!bytes || size == 0)
        return 1;
    clock_gettime(CLOCK_MONOTONIC, &start);
    for (long round = 0; round < rounds; round++) {
        unsigned char *copied = malloc(size);
        if (!copied)
            return 1;
        copy(copied, bytes, size);
        sum += copied[round % size];
        free(copied);
    }
    clock_gettime(CLOCK_MONOTONIC, &end);
    double spent = (end.tv_sec - start.tv_sec) + (end.tv_nsec - start.tv_nsec) / 1e9;
    printf("%ld copies of %zu bytes in %.6f s, %.0f a second (%lu)\n", rounds, size, spent, rounds / spent, sum);
    return 0;
}
