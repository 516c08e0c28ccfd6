/*
 * The library's calls beside the same written by hand in C, in one process: medians of many runs, in
 * microseconds; a row has a table's kind, its parts, and for each call the figures of the library, of
 * plain C and of the strongest C. Results are compared first. Arguments: [cost | days | grade], or `once` KIND
 * N MEASURE [rests], which makes each call once and compares, for a tool that counts instructions; with `rests`
 * the line that is repriced is chosen for no part, before and after.
 */
#include <stdio.h>
#include <stdlib.h>
#include <string.h>

#include "clock.h"
#include "calls.h"
#include "tables.h"

enum { ROOM = 4096, SAMPLES = 101, CALLS = 4, MAKERS = 3 };

static const struct maker library = { settle, tozbierdu_check_answers, reprice, bill };
static const struct maker *const makers[MAKERS] = { &library, &plain, &strongest };

/* A table with its answers, a part whose bill fits the room, a line, its figure, and the bits that repricing turns. */
struct job {
    uint64_t measure, part, line, figure, turned;
    struct table t;
    uint64_t figures[TOZBIERDU_MOST_PARTS], depths[TOZBIERDU_MOST_PARTS], lines[TOZBIERDU_MOST_PARTS],
        pieces[TOZBIERDU_MOST_PARTS];
    uint64_t room[ROOM];
};

#define TABLE(j) \
    (j)->t.heads, (j)->t.lines, (j)->t.own, (j)->t.lines, (j)->t.strikes, (j)->t.lines, (j)->t.spans, \
        2 * (j)->t.lines, (j)->t.tails, (j)->t.listed
#define ANSWERS(j) (j)->figures, (j)->t.n, (j)->depths, (j)->t.n, (j)->lines, (j)->t.n, (j)->pieces, (j)->t.n

static uint64_t call(const struct maker *m, int which, struct job *j)
{
    switch (which) {
    case 0: return m->settle(j->measure, j->t.n, TABLE(j), ANSWERS(j));
    case 1: return m->check_answers(j->measure, j->t.n, TABLE(j), ANSWERS(j));
    case 2:
        j->figure ^= j->turned;
        return m->reprice(j->measure, j->t.n, TABLE(j), ANSWERS(j), j->line, j->figure);
    default: return m->bill(j->measure, j->t.n, TABLE(j), ANSWERS(j), j->part, j->room, ROOM);
    }
}

/* How long the bill of a part is whose needed parts are known, cut at one more than the room. */
static uint64_t bill_length(const struct job *j, uint64_t part, const uint64_t *known)
{
    const uint64_t *span = j->t.spans + 2 * j->lines[part];
    uint64_t i, length = 1;

    for (i = 0; i < span[1]; i++)
        length += known[j->t.tails[span[0] + i]];
    return length > ROOM ? ROOM + 1 : length;
}

/* The part with the longest bill that the room holds, and the line at its root. */
static void choose(struct job *j)
{
    uint64_t known[TOZBIERDU_MOST_PARTS] = { 0 }, part, depth, best = 0;

    for (depth = 1; depth <= j->t.n; depth++)
        for (part = 0; part < j->t.n; part++) {
            if (j->depths[part] != depth)
                continue;
            known[part] = bill_length(j, part, known);
            if (known[part] <= ROOM && known[part] > best) {
                best = known[part];
                j->part = part;
            }
        }
    j->line = j->lines[j->part];
    j->figure = j->t.own[j->line];
    j->turned = 1;
}

/* The last line that is chosen for no part and can be worse by one; whether there is one. */
static int choose_resting(struct job *j)
{
    uint64_t line = j->t.lines, last = j->measure == TOZBIERDU_GRADE ? 0 : TOZBIERDU_GREATEST;

    while (line-- > 0)
        if (j->lines[j->t.heads[line]] != line && j->t.own[line] != last)
            break;
    j->line = line;
    if (line >= j->t.lines)
        return 0;
    j->figure = j->t.own[line];
    j->turned = j->figure ^ (j->measure == TOZBIERDU_GRADE ? j->figure - 1 : j->figure + 1);
    return 1;
}

/* Each maker has a job of its own: all give the same result, none a refusal, and leave the same bytes. */
static int agree_on(int which, struct job *jobs)
{
    uint64_t result = call(makers[0], which, &jobs[0]);
    int i;

    for (i = 1; i < MAKERS; i++)
        if (call(makers[i], which, &jobs[i]) != result || memcmp(&jobs[i], &jobs[0], sizeof *jobs) != 0)
            return 0;
    return !tozbierdu_refused(result);
}

/* On every call, and on answers that are off by one. */
static int agree(const struct job *given)
{
    static struct job jobs[MAKERS];
    int which, i;

    for (i = 0; i < MAKERS; i++)
        jobs[i] = *given;
    for (which = 0; which < CALLS; which++)
        if (!agree_on(which, jobs))
            return 0;
    for (i = 0; i < MAKERS; i++)
        jobs[i].figures[jobs[i].part]++;
    return agree_on(1, jobs);
}

static void disagreed(int kind, uint64_t n)
{
    fprintf(stderr, "%s of %u parts: the library and C disagree\n", kind_names[kind], (unsigned)n);
    exit(1);
}

static void prepare(struct job *j, uint64_t measure, int kind, uint64_t n)
{
    memset(j, 0, sizeof *j);
    j->measure = measure;
    make_table(&j->t, kind, n);
    call(&plain, 0, j);
    choose(j);
    if (!agree(j))
        disagreed(kind, n);
}

static double sample(const struct maker *m, int which, struct job *j, unsigned times)
{
    double start = now();
    unsigned i;

    for (i = 0; i < times; i++)
        call(m, which, j);
    return (now() - start) / times;
}

/* The median of samples of at least 20 microseconds each, for at most a fifth of a second. */
static double median(const struct maker *m, int which, struct job *j)
{
    double samples[SAMPLES], start = now();
    unsigned times = 2, count = 0;

    while (sample(m, which, j, times) * times < 20)
        times *= 2;
    while (count < SAMPLES && (count < 5 || now() - start < 2e5))
        samples[count++] = sample(m, which, j, times);
    qsort(samples, count, sizeof *samples, ascending);
    return samples[count / 2];
}

static void row(uint64_t measure, int kind, uint64_t n)
{
    static struct job j;
    int which, i;

    prepare(&j, measure, kind, n);
    printf("%s %u", kind_names[kind], (unsigned)n);
    for (which = 0; which < CALLS; which++)
        for (i = 0; i < MAKERS; i++)
            printf(" %.3f", median(makers[i], which, &j));
    printf("\n");
    fflush(stdout);
}

static uint64_t measure_of(const char *word)
{
    if (strcmp(word, "grade") == 0)
        return TOZBIERDU_GRADE;
    return strcmp(word, "days") == 0 ? TOZBIERDU_DAYS : TOZBIERDU_COST;
}

static int once(const char *kind, uint64_t n, uint64_t measure, int rests)
{
    static struct job jobs[MAKERS];
    int k, which, i;

    for (k = 0; k < KINDS && strcmp(kind, kind_names[k]) != 0; k++)
        continue;
    if (k == KINDS)
        return 2;
    for (i = 0; i < MAKERS; i++)
        make_table(&jobs[i].t, k, n), jobs[i].measure = measure;
    for (which = 0; which < CALLS; which++) {
        if (!agree_on(which, jobs))
            disagreed(k, n);
        for (i = 0; which == 0 && i < MAKERS; i++) {
            choose(&jobs[i]);
            if (rests && !choose_resting(&jobs[i])) {
                fprintf(stderr, "%s: no line can be worse\n", kind);
                return 2;
            }
        }
    }
    return 0;
}

int main(int count, char **given)
{
    static const uint64_t sizes[] = { 16, 64, 256, 1024 };
    uint64_t measure = measure_of(count > 1 ? given[1] : "cost");
    int kind;
    size_t i;

    if ((count == 5 || count == 6) && strcmp(given[1], "once") == 0)
        return once(given[2], strtoull(given[3], NULL, 10), measure_of(given[4]), count == 6);
    for (kind = 0; kind < KINDS; kind++)
        for (i = 0; i < sizeof sizes / sizeof *sizes; i++)
            row(measure, kind, sizes[i]);
    return 0;
}
