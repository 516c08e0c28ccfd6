/*
 * Long bills: part i needs part i - 1 so many times, so a bill has 1 + k + k^2 + … lines; or, for 0 times, the two parts
 * before it, so that no part is listed twice. `once K DEPTH` makes each call once, for callgrind; else the time of a
 * call, the median of many, in microseconds.
 */
#include <stdio.h>
#include <stdlib.h>
#include <string.h>

#include "../calls.h"
#include "../clock.h"
#include "tozbierdu.h"

enum { PARTS = 64, ROOM = 1 << 17, TIMES = 201 };

static uint64_t heads[PARTS], own[PARTS], strikes[PARTS], spans[2 * PARTS], tails[16 * PARTS];
static uint64_t figures[PARTS], depths[PARTS], lines[PARTS], pieces[PARTS], room[2][ROOM];
static uint64_t n, listed;

#define GIVEN n, heads, n, own, n, strikes, n, spans, 2 * n, tails, listed, figures, n, depths, n, lines, n, pieces, n

static void make(uint64_t times, uint64_t deep)
{
    uint64_t i, k;

    n = deep;
    listed = 0;
    for (i = 0; i < n; i++) {
        heads[i] = i;
        own[i] = 1;
        spans[2 * i] = listed;
        for (k = 0; i > 0 && k < times; k++)
            tails[listed++] = i - 1;
        for (k = 1; times == 0 && k <= 2 && k <= i; k++)
            tails[listed++] = i - k;
        spans[2 * i + 1] = listed - spans[2 * i];
    }
    settle(TOZBIERDU_COST, GIVEN);
}

static double median(uint64_t (*call)(uint64_t, uint64_t, TABLE_COLUMNS, ANSWER_COLUMNS, uint64_t, uint64_t *, size_t),
                     uint64_t *into, size_t places)
{
    static double took[TIMES];
    size_t i;

    for (i = 0; i < TIMES; i++) {
        double start = now();
        call(TOZBIERDU_COST, GIVEN, n - 1, into, places);
        took[i] = now() - start;
    }
    qsort(took, TIMES, sizeof *took, ascending);
    return took[TIMES / 2];
}

static void row(uint64_t times, uint64_t deep, size_t places)
{
    uint64_t given, plainly;
    double ours, theirs;

    make(times, deep);
    memset(room, 0, sizeof room);
    given = bill(TOZBIERDU_COST, GIVEN, n - 1, room[0], places);
    plainly = plain.bill(TOZBIERDU_COST, GIVEN, n - 1, room[1], places);
    if (given != plainly || memcmp(room[0], room[1], sizeof *room) != 0) {
        fprintf(stderr, "bills differ\n");
        exit(1);
    }
    ours = median(bill, room[0], places);
    theirs = median(plain.bill, room[1], places);
    printf("%llu parts, each the one before %llu times (0: the two before): %llu; %.2f; plain C %.2f (%.2f)\n",
           (unsigned long long)deep, (unsigned long long)times, (unsigned long long)given, ours, theirs, ours / theirs);
}

int main(int count, char **given)
{
    if (count == 4 && strcmp(given[1], "once") == 0) {
        make(strtoull(given[2], NULL, 10), strtoull(given[3], NULL, 10));
        bill(TOZBIERDU_COST, GIVEN, n - 1, room[0], ROOM);
        plain.bill(TOZBIERDU_COST, GIVEN, n - 1, room[1], ROOM);
        return 0;
    }
    row(2, 16, ROOM);
    row(16, 5, ROOM);
    row(0, 23, ROOM);
    row(2, 32, ROOM);
    row(2, 64, ROOM);
    return 0;
}
