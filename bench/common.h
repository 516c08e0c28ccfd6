/* What both yardsticks are written with: tables, refusals of lines, and labels as keys. */
#ifndef BENCH_COMMON_H
#define BENCH_COMMON_H

#include "calls.h"
#include "tozbierdu.h"

#define REFUSED(number, place) ((uint64_t)(number) << 32 | (place))

/* A table whose columns have agreeing lengths. */
struct view {
    uint64_t n, lines, listed;
    const uint64_t *heads, *own, *strikes, *spans, *tails;
};

static inline uint64_t greater(uint64_t a, uint64_t b)
{
    return a > b ? a : b;
}

static inline uint64_t lesser(uint64_t a, uint64_t b)
{
    return a < b ? a : b;
}

/* Refusals 3, 4, 21, 5 and 6: the first in the order of the lines, or 0. */
static inline uint64_t first_refusal(const struct view *t)
{
    uint64_t line, i, end = 0;

    for (line = 0; line < t->lines; line++) {
        uint64_t offset = t->spans[2 * line], size = t->spans[2 * line + 1];
        if (t->heads[line] >= t->n)
            return REFUSED(TOZBIERDU_REFUSED_HEAD, line);
        if (t->own[line] > TOZBIERDU_GREATEST)
            return REFUSED(TOZBIERDU_REFUSED_OWN, line);
        if (t->strikes[line] > TOZBIERDU_STRIKE)
            return REFUSED(TOZBIERDU_REFUSED_STRIKE_MARK, line);
        /* offset + size could wrap */
        if (offset < end || size > TOZBIERDU_LONGEST_TAIL || offset > t->listed
            || size > t->listed - offset)
            return REFUSED(TOZBIERDU_REFUSED_SPAN, line);
        end = offset + size;
        for (i = offset; i < end; i++)
            if (t->tails[i] >= t->n)
                return REFUSED(TOZBIERDU_REFUSED_TAIL, line);
    }
    return 0;
}

/* A figure's place in the measure's order, and the figure of a place: in grade the greatest is first. */
static inline uint64_t rank(uint64_t measure, uint64_t figure)
{
    return measure == TOZBIERDU_GRADE ? (UINT64_C(1) << 40) - 1 - figure : figure;
}

/* A label in one number, ordered as labels are: by figure, then depth (11 bits), then line (12 bits). */
static inline uint64_t key(uint64_t measure, uint64_t figure, uint64_t depth, uint64_t line)
{
    return rank(measure, figure) << 23 | depth << 12 | line;
}

static inline uint64_t figure_of(uint64_t measure, uint64_t key)
{
    return rank(measure, key >> 23);
}

static inline uint64_t depth_of(uint64_t key)
{
    return key >> 12 & 2047;
}

static inline uint64_t line_of(uint64_t key)
{
    return key & 4095;
}

/* Above every key. */
#define NO_KEY UINT64_MAX

/* Of the parts that a line needs: its own figure is added at the end, and the sum is capped there; an
 * own figure and 16 others stay below 2^45. */
static inline uint64_t join(uint64_t measure, uint64_t a, uint64_t b)
{
    if (measure == TOZBIERDU_GRADE)
        return lesser(a, b);
    return measure == TOZBIERDU_DAYS ? greater(a, b) : a + b;
}

/* What no part joins to. */
static inline uint64_t unit(uint64_t measure)
{
    return measure == TOZBIERDU_GRADE ? TOZBIERDU_GREATEST : 0;
}

static inline uint64_t capped(uint64_t figure)
{
    return lesser(figure, TOZBIERDU_OVER);
}

static inline uint64_t finish(uint64_t measure, uint64_t own, uint64_t joined)
{
    return measure == TOZBIERDU_GRADE ? lesser(own, joined) : capped(own + joined);
}

/*
 * How many bought pieces a line's make-up holds, from the counts of the parts that it needs. A lent count
 * may be too great for a sum; it is then found to be wrong itself.
 */
static inline uint64_t pieces_by(const struct view *t, uint64_t line, const uint64_t *pieces)
{
    uint64_t at = t->spans[2 * line], end = at + t->spans[2 * line + 1], sum = 0;

    if (at == end)
        return 1;
    for (; at < end; at++)
        sum += pieces[t->tails[at]];
    return lesser(sum, TOZBIERDU_MOST_PIECES);
}

/* Whether every part has the count of its line, and an unmade one 0. */
static inline int pieces_right(const struct view *t, const uint64_t *depths, const uint64_t *lines,
                               const uint64_t *pieces)
{
    uint64_t part;

    for (part = 0; part < t->n; part++)
        if (pieces[part] != (depths[part] == 0 ? 0 : pieces_by(t, lines[part], pieces)))
            return 0;
    return 1;
}

/* Ends the list of the lines that wait for a part. */
#define NO_LINE UINT16_MAX

#endif
