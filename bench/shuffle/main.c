/*
 * tozbierdu_shuffle and tozbierdu_unshuffle beside plain C: a row has the call, the number of figures and
 * the microseconds of the library and of plain C, medians of many runs. Results are compared first.
 */
#include <stdio.h>
#include <stdlib.h>
#include <string.h>

#include "../clock.h"
#include "shuffle.h"

enum { MOST = 100000, SAMPLES = 101, COUNTS = 2 };

static const size_t counts[COUNTS] = { 4096, MOST };

static uint64_t own[MOST], back[MOST], back_plain[MOST];
static uint8_t room[8 * MOST], room_plain[8 * MOST];

typedef uint64_t shuffling(const uint64_t *, size_t, uint8_t *, size_t);
typedef uint64_t unshuffling(const uint8_t *, size_t, uint64_t *, size_t);

static double middle(double *samples)
{
    qsort(samples, SAMPLES, sizeof *samples, ascending);
    return samples[SAMPLES / 2];
}

static double time_shuffle(shuffling *shuffle, size_t k)
{
    double samples[SAMPLES], start;
    size_t times = MOST / k, i, j;

    for (i = 0; i < SAMPLES; i++) {
        start = now();
        for (j = 0; j < times; j++)
            shuffle(own, k, room, 8 * k);
        samples[i] = (now() - start) / (double)times;
    }
    return middle(samples);
}

static double time_unshuffle(unshuffling *unshuffle, size_t k)
{
    double samples[SAMPLES], start;
    size_t times = MOST / k, i, j;

    for (i = 0; i < SAMPLES; i++) {
        start = now();
        for (j = 0; j < times; j++)
            unshuffle(room, 8 * k, back, k);
        samples[i] = (now() - start) / (double)times;
    }
    return middle(samples);
}

static int agree(size_t k, size_t places)
{
    uint64_t result = tozbierdu_shuffle(own, k, room, places);

    if (result != plain_shuffle(own, k, room_plain, places) || memcmp(room, room_plain, 8 * k) != 0)
        return 0;
    result = tozbierdu_unshuffle(room, places, back, k);
    return result == plain_unshuffle(room, places, back_plain, k) &&
           memcmp(back, back_plain, k * sizeof *back) == 0 &&
           (result != 0 || memcmp(back, own, k * sizeof *back) == 0);
}

int main(void)
{
    uint64_t state = 1;
    size_t i, k;

    for (i = 0; i < MOST; i++) {
        state = state * 6364136223846793005u + 1442695040888963407u;
        own[i] = i % 2 == 0 ? state >> 34 : state;
    }
    for (i = 0; i < COUNTS; i++) {
        k = counts[i];
        if (!agree(k, 8 * k) || !agree(k, 8 * k - 1)) {
            fprintf(stderr, "%u figures: the library and C disagree\n", (unsigned)k);
            return 1;
        }
        printf("shuffle/%u %.3f %.3f\n", (unsigned)k, time_shuffle(tozbierdu_shuffle, k), time_shuffle(plain_shuffle, k));
        printf("unshuffle/%u %.3f %.3f\n", (unsigned)k, time_unshuffle(tozbierdu_unshuffle, k),
               time_unshuffle(plain_unshuffle, k));
    }
    return 0;
}
