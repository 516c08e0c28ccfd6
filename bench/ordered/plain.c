/*
 * Settling in order by hand, with the library's own idea and without a proof: each line is checked, its
 * listed parts against its head; the lines of each head are linked, from the last line down; then one
 * walk up the parts gives each the first of what its lines offer.
 */
#include <string.h>

#include "../common.h"
#include "ordered.h"

/* Refusals 3, 4, 21, 5, 6 and 24: the first in the order of the lines, or 0. */
static uint64_t check_lines(const struct view *t)
{
    uint64_t line, i, end = 0;

    for (line = 0; line < t->lines; line++) {
        uint64_t offset = t->spans[2 * line], size = t->spans[2 * line + 1], head = t->heads[line], high = 0;
        if (head >= t->n)
            return REFUSED(TOZBIERDU_REFUSED_HEAD, line);
        if (t->own[line] > TOZBIERDU_GREATEST)
            return REFUSED(TOZBIERDU_REFUSED_OWN, line);
        if (t->strikes[line] > TOZBIERDU_STRIKE)
            return REFUSED(TOZBIERDU_REFUSED_STRIKE_MARK, line);
        if (offset < end || size > TOZBIERDU_LONGEST_TAIL || offset > t->listed
            || size > t->listed - offset)
            return REFUSED(TOZBIERDU_REFUSED_SPAN, line);
        end = offset + size;
        for (i = offset; i < end; i++)
            high |= t->tails[i] >= head;
        for (i = offset; high && i < end; i++)
            if (t->tails[i] >= t->n)
                return REFUSED(TOZBIERDU_REFUSED_TAIL, line);
        if (high)
            return REFUSED(TOZBIERDU_REFUSED_ORDER, line);
    }
    return 0;
}

/* The label that a line gives its head, as a key; none if it is struck or needs an unmade part. */
static inline uint64_t offer(const struct view *t, uint64_t measure, uint64_t line,
                             const uint64_t *figures, const uint64_t *depths)
{
    uint64_t joined = unit(measure), deepest = 0, at = t->spans[2 * line], end = at + t->spans[2 * line + 1];

    if (t->strikes[line] == TOZBIERDU_STRIKE)
        return NO_KEY;
    for (; at < end; at++) {
        uint64_t part = t->tails[at];
        if (depths[part] == 0)
            return NO_KEY;
        joined = join(measure, joined, figures[part]);
        deepest = greater(deepest, depths[part]);
    }
    return key(measure, finish(measure, t->own[line], joined), deepest + 1, line);
}

static void walk(const struct view *t, uint64_t measure, uint64_t *figures, uint64_t *depths, uint64_t *lines,
                 uint64_t *pieces)
{
    uint16_t first[TOZBIERDU_MOST_PARTS], next[TOZBIERDU_MOST_LINES], line;
    uint64_t part, i;

    memset(first, 0xff, t->n * sizeof *first);
    for (i = t->lines; i-- > 0;) {
        next[i] = first[t->heads[i]];
        first[t->heads[i]] = i;
    }
    for (part = 0; part < t->n; part++) {
        uint64_t best = NO_KEY;
        for (line = first[part]; line != NO_LINE; line = next[line])
            best = lesser(best, offer(t, measure, line, figures, depths));
        figures[part] = best == NO_KEY ? 0 : figure_of(measure, best);
        depths[part] = best == NO_KEY ? 0 : depth_of(best);
        lines[part] = best == NO_KEY ? 0 : line_of(best);
        pieces[part] = best == NO_KEY ? 0 : pieces_by(t, line_of(best), pieces);
    }
}

uint64_t plain_settle_ordered(uint64_t measure, uint64_t n, TABLE_COLUMNS, WRITTEN_COLUMNS)
{
    struct view t = { n, heads_count, tails_count, heads, own, strikes, spans, tails };
    uint64_t result;

    if (measure > TOZBIERDU_GRADE)
        return REFUSED(TOZBIERDU_REFUSED_MEASURE, 0);
    if (n > TOZBIERDU_MOST_PARTS)
        return REFUSED(TOZBIERDU_REFUSED_PARTS, 0);
    if (own_count != heads_count || strikes_count != heads_count || heads_count > TOZBIERDU_MOST_LINES
        || spans_count != 2 * heads_count || tails_count > TOZBIERDU_MOST_TAILS)
        return REFUSED(TOZBIERDU_REFUSED_LENGTHS, 0);
    if ((result = check_lines(&t)) != 0)
        return result;
    if (figures_count != n || depths_count != n || lines_count != n || pieces_count != n)
        return REFUSED(TOZBIERDU_REFUSED_ANSWER_LENGTHS, 0);
    walk(&t, measure, figures, depths, lines, pieces);
    return 0;
}
