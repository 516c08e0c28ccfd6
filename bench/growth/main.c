/*
 * index_table and append of the library beside plain C: a row has a table's kind, its parts, and for
 * each call the microseconds of the library and of plain C, medians of many runs. Results and columns
 * are compared first. Argument: [cost | days].
 */
#include <stdio.h>
#include <stdlib.h>
#include <string.h>

#include "../clock.h"
#include "growth.h"

enum { SAMPLES = 61 };

static uint64_t index_by(int maker, struct growth *g)
{
    return (maker == 0 ? tozbierdu_index_table : plain_index_table)(g->n, USED_COLUMNS(g), g->index,
                                                                  g->index_count, g->list, g->list_count);
}

static uint64_t append_by(int maker, struct growth *g)
{
    uint64_t counts[2], result;

    if (maker != 0)
        return plain_append(g);
    result = tozbierdu_append(g->measure, g->n, g->heads, TOZBIERDU_MOST_LINES, g->own, TOZBIERDU_MOST_LINES,
                            g->strikes, TOZBIERDU_MOST_LINES, g->spans, 2 * TOZBIERDU_MOST_LINES, g->tails,
                            TOZBIERDU_MOST_TAILS, g->lines, g->listed, ANSWERS_OF(g), g->index, g->index_count,
                            g->list, g->list_count, g->head, g->figure, g->mark, g->needed, g->needed_count,
                            counts, 2);
    if (result == 0) {
        g->lines = counts[0];
        g->listed = counts[1];
    }
    return result;
}

/* A table of a kind whose last line is taken off, to be appended. */
static void prepare(struct growth *g, uint64_t measure, int kind, uint64_t n)
{
    static struct table t;
    size_t last;

    make_table(&t, kind, n);
    memset(g, 0, sizeof *g);
    last = t.lines - 1;
    g->measure = measure;
    g->n = n;
    memcpy(g->heads, t.heads, sizeof g->heads);
    memcpy(g->own, t.own, sizeof g->own);
    memcpy(g->strikes, t.strikes, sizeof g->strikes);
    memcpy(g->spans, t.spans, sizeof g->spans);
    memcpy(g->tails, t.tails, sizeof g->tails);
    g->head = t.heads[last];
    g->figure = t.own[last];
    g->mark = t.strikes[last];
    g->needed_count = t.spans[2 * last + 1];
    memcpy(g->needed, t.tails + t.spans[2 * last], g->needed_count * sizeof *g->needed);
    g->lines = last;
    g->listed = t.spans[2 * last];
    g->index_count = 2 * n;
    g->list_count = TOZBIERDU_MOST_TAILS;
    plain.settle(measure, n, USED_COLUMNS(g), ANSWERS_OF(g));
    plain_index_table(n, USED_COLUMNS(g), g->index, g->index_count, g->list, g->list_count);
}

/* An appending is undone by the columns as they were, which is not timed. */
static double median(uint64_t (*call)(int, struct growth *), int maker, const struct growth *given)
{
    static struct growth g;
    double samples[SAMPLES], start;
    int i;

    for (i = 0; i < SAMPLES; i++) {
        g = *given;
        start = now();
        call(maker, &g);
        samples[i] = now() - start;
    }
    qsort(samples, SAMPLES, sizeof *samples, ascending);
    return samples[SAMPLES / 2];
}

static int agree(uint64_t (*call)(int, struct growth *), const struct growth *given)
{
    static struct growth a, b;

    a = b = *given;
    return call(0, &a) == call(1, &b) && memcmp(&a, &b, sizeof a) == 0;
}

static void row(uint64_t measure, int kind, uint64_t n)
{
    static struct growth g;
    int maker;

    prepare(&g, measure, kind, n);
    if (!agree(index_by, &g) || !agree(append_by, &g)) {
        fprintf(stderr, "%s of %u parts: the library and C disagree\n", kind_names[kind], (unsigned)n);
        exit(1);
    }
    printf("%s %u", kind_names[kind], (unsigned)n);
    for (maker = 0; maker < 2; maker++)
        printf(" %.2f", median(index_by, maker, &g));
    for (maker = 0; maker < 2; maker++)
        printf(" %.2f", median(append_by, maker, &g));
    printf("\n");
}

int main(int count, char **given)
{
    static const uint64_t sizes[] = { 16, 64, 256, 1024 };
    uint64_t measure = count > 1 && strcmp(given[1], "days") == 0 ? TOZBIERDU_DAYS : TOZBIERDU_COST;
    int kind;
    size_t i;

    for (kind = 0; kind < KINDS; kind++)
        for (i = 0; i < sizeof sizes / sizeof *sizes; i++)
            row(measure, kind, sizes[i]);
    return 0;
}
