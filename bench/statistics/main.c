/*
 * tozbierdu_summarize beside plain C on samples of 1,000 results: a row has the sample's kind and the
 * microseconds of the library and of plain C, medians of many runs. Results are compared first.
 */
#include <stdio.h>
#include <stdlib.h>
#include <string.h>

#include "../clock.h"
#include "statistics.h"

enum { RESULTS = 1000, SAMPLES = 201, TIMES = 100, KINDS = 3 };

static const char *const kind_names[KINDS] = { "random", "close", "ends" };

static uint64_t result_of(int kind, uint64_t *state)
{
    *state = *state * 6364136223846793005u + 1442695040888963407u;
    switch (kind) {
    case 0: return (*state >> 33) % 1000001;
    case 1: return 999000 + (*state >> 33) % 1000;
    default: return (*state >> 33) % 2 * 1000000;
    }
}

typedef uint64_t summarizing(const uint64_t *, size_t, uint64_t *, size_t);

static double median(summarizing *summarize, const uint64_t *results)
{
    double samples[SAMPLES], start;
    uint64_t room[4];
    int i, k;

    for (i = 0; i < SAMPLES; i++) {
        start = now();
        for (k = 0; k < TIMES; k++)
            summarize(results, RESULTS, room, 4);
        samples[i] = (now() - start) / TIMES;
    }
    qsort(samples, SAMPLES, sizeof *samples, ascending);
    return samples[SAMPLES / 2];
}

static int agree(const uint64_t *results, size_t count)
{
    uint64_t a[4] = { 0 }, b[4] = { 0 };

    return tozbierdu_summarize(results, count, a, 4) == plain_summarize(results, count, b, 4) &&
           memcmp(a, b, sizeof a) == 0;
}

int main(void)
{
    static uint64_t results[RESULTS];
    uint64_t state = 1;
    size_t i, count;
    int kind;

    for (kind = 0; kind < KINDS; kind++) {
        for (i = 0; i < RESULTS; i++)
            results[i] = result_of(kind, &state);
        for (count = 0; count <= RESULTS; count++)
            if (!agree(results, count)) {
                fprintf(stderr, "%s, %u results: the library and C disagree\n", kind_names[kind], (unsigned)count);
                return 1;
            }
        printf("%s %.3f %.3f\n", kind_names[kind], median(tozbierdu_summarize, results),
               median(plain_summarize, results));
    }
    return 0;
}
