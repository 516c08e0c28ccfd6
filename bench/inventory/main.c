/*
 * tozbierdu_replay beside plain C on 4,096 events over the largest table: a row has the record's kind and
 * the microseconds of the library and of plain C, medians of many runs. Results and columns are compared
 * first.
 */
#include <stdio.h>
#include <stdlib.h>
#include <string.h>

#include "../clock.h"
#include "../common.h"
#include "inventory.h"

enum { PARTS = 1024, LINES = 4096, BASE = 16, SAMPLES = 101, RECORDS = 4 };

static const char *const record_names[RECORDS] = { "receipts", "shelf", "built", "late" };

static uint64_t heads[LINES], own[LINES], strikes[LINES], spans[2 * LINES], tails[16 * PARTS];
static uint64_t figures[PARTS], depths[PARTS], lines[PARTS], pieces[PARTS];
static uint64_t parts[MOST_EVENTS], received[MOST_EVENTS], opening[PARTS];

/* 1,024 lines of 16 parts each, which yield the parts from 16 on, and 3,072 lines that buy the others. */
static void make_table(void)
{
    size_t line, k;

    for (line = 0; line < LINES; line++) {
        int made = line < PARTS;

        heads[line] = made ? BASE + line % (PARTS - BASE) : line % BASE;
        own[line] = 1 + line % 7;
        spans[2 * line] = BASE * (made ? line : PARTS);
        spans[2 * line + 1] = made ? BASE : 0;
        for (k = 0; made && k < BASE; k++)
            tails[BASE * line + k] = (line + k) % (BASE - 1);
        if (made)
            tails[BASE * line + BASE - 1] = BASE - 1;
    }
    settle(TOZBIERDU_COST, PARTS, heads, LINES, own, LINES, strikes, LINES, spans, 2 * LINES, tails, BASE * PARTS,
           figures, PARTS, depths, PARTS, lines, PARTS, pieces, PARTS);
}

/* Late orders want the last part of their list. */
static void make_record(int kind)
{
    size_t i;

    for (i = 0; i < PARTS; i++)
        opening[i] = kind == 1 ? 100 : i < BASE - (kind == 3) ? 900000 : 0;
    for (i = 0; i < MOST_EVENTS; i++) {
        parts[i] = BASE + i * 577 % (PARTS - BASE);
        received[i] = kind == 0;
    }
}

static uint64_t replay_by(int maker, uint64_t *stock, uint64_t *outcomes)
{
    return (maker == 0 ? tozbierdu_replay : plain_replay)(
        TOZBIERDU_COST, PARTS, heads, LINES, own, LINES, strikes, LINES, spans, 2 * LINES, tails, BASE * PARTS, figures,
        PARTS, depths, PARTS, lines, PARTS, pieces, PARTS, parts, MOST_EVENTS, received, MOST_EVENTS, stock, PARTS, outcomes,
        MOST_EVENTS);
}

static double median(int maker)
{
    static uint64_t stock[PARTS], outcomes[MOST_EVENTS];
    double samples[SAMPLES], start;
    int i;

    for (i = 0; i < SAMPLES; i++) {
        memcpy(stock, opening, sizeof stock);
        start = now();
        replay_by(maker, stock, outcomes);
        samples[i] = now() - start;
    }
    qsort(samples, SAMPLES, sizeof *samples, ascending);
    return samples[SAMPLES / 2];
}

static int agree(int kind)
{
    static uint64_t stock[2][PARTS], outcomes[2][MOST_EVENTS];
    int maker;

    for (maker = 0; maker < 2; maker++) {
        memcpy(stock[maker], opening, sizeof opening);
        if (replay_by(maker, stock[maker], outcomes[maker]) != 0 || outcomes[maker][0] != (uint64_t)kind)
            return 0;
    }
    return memcmp(stock[0], stock[1], sizeof stock[0]) == 0 &&
           memcmp(outcomes[0], outcomes[1], sizeof outcomes[0]) == 0;
}

int main(void)
{
    int kind;

    make_table();
    for (kind = 0; kind < RECORDS; kind++) {
        make_record(kind);
        if (!agree(kind)) {
            fprintf(stderr, "%s: the library and C disagree\n", record_names[kind]);
            return 1;
        }
        printf("%s %.3f %.3f\n", record_names[kind], median(0), median(1));
    }
    return 0;
}
