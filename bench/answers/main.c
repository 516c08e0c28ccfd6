/*
 * The answer check of the library beside plain C's: on right answers, and on answers whose figure for
 * part 0 is one too great; and bill and reprice, which check answers first. Arguments: `once` MEASURE
 * KIND N makes each call once, for a tool that counts instructions; MEASURE alone, cost or days,
 * prints a row for each table: the measure, its kind, its parts, and for each call the microseconds
 * of the library and of plain C, the least of many runs. Results are compared first.
 */
#include <stdio.h>
#include <stdlib.h>
#include <string.h>

#include "../clock.h"
#include "../calls.h"
#include "../tables.h"

enum { SAMPLES = 151, CALLS = 4, MAKERS = 2 };

static const struct maker library = { settle, tozbierdu_check_answers, reprice, bill };
static const struct maker *const makers[MAKERS] = { &library, &plain };

/* A table with its answers, and its first bought part, with the line and its figure. */
struct job {
    uint64_t measure, part, line, figure;
    struct table t;
    uint64_t figures[TOZBIERDU_MOST_PARTS], depths[TOZBIERDU_MOST_PARTS], lines[TOZBIERDU_MOST_PARTS],
        pieces[TOZBIERDU_MOST_PARTS];
    uint64_t room[1];
};

#define TABLE(j) \
    (j)->t.heads, (j)->t.lines, (j)->t.own, (j)->t.lines, (j)->t.strikes, (j)->t.lines, (j)->t.spans, \
        2 * (j)->t.lines, (j)->t.tails, (j)->t.listed
#define ANSWERS(j) (j)->figures, (j)->t.n, (j)->depths, (j)->t.n, (j)->lines, (j)->t.n, (j)->pieces, (j)->t.n

/* Each call has a function of its own, by whose name its instructions are told from the others'. */
#define APART __attribute__((noinline))

static APART uint64_t call_right(const struct maker *m, struct job *j)
{
    return m->check_answers(j->measure, j->t.n, TABLE(j), ANSWERS(j));
}

static APART uint64_t call_wrong(const struct maker *m, struct job *j)
{
    uint64_t result;

    j->figures[0]++;
    result = m->check_answers(j->measure, j->t.n, TABLE(j), ANSWERS(j));
    j->figures[0]--;
    return result;
}

static APART uint64_t call_bill(const struct maker *m, struct job *j)
{
    return m->bill(j->measure, j->t.n, TABLE(j), ANSWERS(j), j->part, j->room, 1);
}

static APART uint64_t call_reprice(const struct maker *m, struct job *j)
{
    j->figure ^= 1;
    return m->reprice(j->measure, j->t.n, TABLE(j), ANSWERS(j), j->line, j->figure);
}

static uint64_t (*const calls[CALLS])(const struct maker *, struct job *) = { call_right, call_wrong,
                                                                              call_bill, call_reprice };
static const uint64_t results[CALLS] = { 1, 0, 1, 0 };

/* The library and plain C give the result that is due, and leave the same bytes. */
static int agree(const struct job *given)
{
    static struct job jobs[MAKERS];
    int which, i;

    for (i = 0; i < MAKERS; i++)
        jobs[i] = *given;
    for (which = 0; which < CALLS; which++)
        for (i = 0; i < MAKERS; i++)
            if (calls[which](makers[i], &jobs[i]) != results[which])
                return 0;
    return memcmp(&jobs[0], &jobs[1], sizeof *jobs) == 0;
}

/* Calls agree, which makes each of them once. */
static void prepare(struct job *j, uint64_t measure, int kind, uint64_t n)
{
    memset(j, 0, sizeof *j);
    j->measure = measure;
    make_table(&j->t, kind, n);
    plain.settle(measure, n, TABLE(j), ANSWERS(j));
    while (j->part < n - 1 && j->depths[j->part] != 1)
        j->part++;
    j->line = j->lines[j->part];
    j->figure = j->t.own[j->line];
    if (!agree(j)) {
        fprintf(stderr, "%s of %u parts: the library and C disagree\n", kind_names[kind], (unsigned)n);
        exit(1);
    }
}

static double sample(int which, const struct maker *m, struct job *j, unsigned times)
{
    double start = now();
    unsigned i;

    for (i = 0; i < times; i++)
        calls[which](m, j);
    return (now() - start) / times;
}

/* The least of samples of at least 20 microseconds each. */
static double least(int which, const struct maker *m, struct job *j)
{
    double least = 1e9, taken;
    unsigned times = 2, count;

    while (sample(which, m, j, times) * times < 20)
        times *= 2;
    for (count = 0; count < SAMPLES; count++) {
        taken = sample(which, m, j, times);
        if (taken < least)
            least = taken;
    }
    return least;
}

static void row(const char *measure, uint64_t number, int kind, uint64_t n)
{
    static struct job j;
    int which, i;

    prepare(&j, number, kind, n);
    printf("%s %s %u", measure, kind_names[kind], (unsigned)n);
    for (which = 0; which < CALLS; which++)
        for (i = 0; i < MAKERS; i++)
            printf(" %.3f", least(which, makers[i], &j));
    printf("\n");
}

static uint64_t numbered(const char *measure)
{
    return strcmp(measure, "days") == 0 ? TOZBIERDU_DAYS : TOZBIERDU_COST;
}

static int once(const char *measure, const char *kind, uint64_t n)
{
    static struct job j;
    int k;

    for (k = 0; k < KINDS && strcmp(kind, kind_names[k]) != 0; k++)
        continue;
    if (k == KINDS)
        return 2;
    prepare(&j, numbered(measure), k, n);
    return 0;
}

int main(int count, char **given)
{
    static const uint64_t sizes[] = { 16, 64, 1024 };
    const char *measure = count > 1 ? given[1] : "cost";
    int kind;
    size_t i;

    if (count == 5 && strcmp(given[1], "once") == 0)
        return once(given[2], given[3], strtoull(given[4], NULL, 10));
    for (kind = 0; kind < KINDS; kind++)
        for (i = 0; i < sizeof sizes / sizeof *sizes; i++)
            row(measure, numbered(measure), kind, sizes[i]);
    return 0;
}
