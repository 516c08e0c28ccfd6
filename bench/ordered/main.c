/*
 * Settling in order beside `settle` of the library, and beside the same walk in plain C: a row has a
 * table's kind, its parts, and the microseconds of settle_ordered, settle and plain C, the least of many
 * runs taken in turn. Results and columns are compared first. `shuffled` is acyclic with its lines in
 * any order. Argument: [cost | days]; or `once` KIND N, for a tool that counts instructions.
 */
#include <stdio.h>
#include <stdlib.h>
#include <string.h>

#include "../clock.h"
#include "../tables.h"
#include "ordered.h"

enum { ROUNDS = 400, MAKERS = 3, NAMES = 6 };

struct job {
    uint64_t measure;
    struct table t;
    uint64_t figures[TOZBIERDU_MOST_PARTS], depths[TOZBIERDU_MOST_PARTS], lines[TOZBIERDU_MOST_PARTS],
        pieces[TOZBIERDU_MOST_PARTS];
};

static const char *const names[NAMES] = { "acyclic", "chain", "wide", "in_order", "bought", "shuffled" };

static uint64_t (*const makers[MAKERS])(uint64_t measure, uint64_t n, TABLE_COLUMNS,
                                        WRITTEN_COLUMNS) = { tozbierdu_settle_ordered, settle,
                                                             plain_settle_ordered };

static uint64_t call(int maker, struct job *j)
{
    struct table *t = &j->t;

    return makers[maker](j->measure, t->n, t->heads, t->lines, t->own, t->lines, t->strikes, t->lines, t->spans,
                         2 * t->lines, t->tails, t->listed, j->figures, t->n, j->depths, t->n, j->lines, t->n,
                         j->pieces, t->n);
}

/* The lines in another order, with their listed parts behind one another in it. */
static void shuffle(struct table *t)
{
    static struct table from;
    size_t order[TOZBIERDU_MOST_LINES], i, k, other;
    uint64_t seed = 1;

    from = *t;
    for (i = 0; i < t->lines; i++)
        order[i] = i;
    for (i = t->lines; i > 1; i--) {
        seed = seed * UINT64_C(6364136223846793005) + UINT64_C(1442695040888963407);
        other = (seed >> 33) % i;
        k = order[i - 1];
        order[i - 1] = order[other];
        order[other] = k;
    }
    t->listed = 0;
    for (i = 0; i < t->lines; i++) {
        k = order[i];
        t->heads[i] = from.heads[k];
        t->own[i] = from.own[k];
        t->strikes[i] = from.strikes[k];
        t->spans[2 * i] = t->listed;
        t->spans[2 * i + 1] = from.spans[2 * k + 1];
        memcpy(t->tails + t->listed, from.tails + from.spans[2 * k], from.spans[2 * k + 1] * sizeof *t->tails);
        t->listed += from.spans[2 * k + 1];
    }
}

static void make(struct job *j, uint64_t measure, const char *name, uint64_t n)
{
    int shuffled = strcmp(name, "shuffled") == 0, kind = 0;

    memset(j, 0, sizeof *j);
    j->measure = measure;
    while (!shuffled && strcmp(name, kind_names[kind]) != 0)
        kind++;
    make_table(&j->t, kind, n);
    if (shuffled)
        shuffle(&j->t);
}

/* All three accept the table and leave the same bytes. */
static void agree(const struct job *given, const char *name)
{
    static struct job jobs[MAKERS];
    int i;

    for (i = 0; i < MAKERS; i++) {
        jobs[i] = *given;
        if (call(i, &jobs[i]) != 0 || memcmp(&jobs[i], &jobs[0], sizeof *jobs) != 0) {
            fprintf(stderr, "%s of %u parts: they disagree\n", name, (unsigned)given->t.n);
            exit(1);
        }
    }
}

static void row(uint64_t measure, const char *name, uint64_t n)
{
    static struct job j;
    double least[MAKERS] = { 1e9, 1e9, 1e9 }, start, taken;
    unsigned times = n < 256 ? 32 : 4, round, k;
    int i;

    make(&j, measure, name, n);
    agree(&j, name);
    for (round = 0; round < ROUNDS; round++)
        for (i = 0; i < MAKERS; i++) {
            call(i, &j);
            start = now();
            for (k = 0; k < times; k++)
                call(i, &j);
            taken = (now() - start) / times;
            least[i] = taken < least[i] ? taken : least[i];
        }
    printf("%s %u %.2f %.2f %.2f  of settle %.2f, of plain C %.2f\n", name, (unsigned)n, least[0], least[1],
           least[2], least[0] / least[1], least[0] / least[2]);
    fflush(stdout);
}

int main(int count, char **given)
{
    static const uint64_t sizes[] = { 16, 64, 256, 1024 };
    static struct job j;
    uint64_t measure = count > 1 && strcmp(given[1], "days") == 0 ? TOZBIERDU_DAYS : TOZBIERDU_COST;
    size_t i, k;

    if (count == 4 && strcmp(given[1], "once") == 0) {
        make(&j, TOZBIERDU_COST, given[2], strtoull(given[3], NULL, 10));
        agree(&j, given[2]);
        return 0;
    }
    for (i = 0; i < NAMES; i++)
        for (k = 0; k < sizeof sizes / sizeof *sizes; k++)
            row(measure, names[i], sizes[k]);
    return 0;
}
