/*
 * Indexing a table and appending a line by hand, without a proof: the index by counting, the library's
 * checks in its order and once each, and the answers by plain C's best-first.
 */
#include "../plain.c"
#include "growth.h"

enum { NO_ROOM = 18, WRONG_INDEX = 19 };

/* The pairs and the list of a table; the list's length. */
static uint64_t build(const struct view *t, uint64_t *pairs, uint64_t *list)
{
    uint16_t last[TOZBIERDU_MOST_PARTS];
    uint64_t line, at, part, sum = 0;

    memset(pairs, 0, 2 * t->n * sizeof *pairs);
    memset(last, 0xff, t->n * sizeof *last);
    for (line = 0; line < t->lines; line++)
        for (at = t->spans[2 * line]; at < t->spans[2 * line] + t->spans[2 * line + 1]; at++) {
            part = t->tails[at];
            pairs[2 * part + 1] += last[part] != line;
            last[part] = line;
        }
    for (part = 0; part < t->n; part++) {
        uint64_t count = pairs[2 * part + 1];
        pairs[2 * part] = sum;
        pairs[2 * part + 1] = 0;
        sum += count;
    }
    memset(last, 0xff, t->n * sizeof *last);
    for (line = 0; line < t->lines; line++)
        for (at = t->spans[2 * line]; at < t->spans[2 * line] + t->spans[2 * line + 1]; at++) {
            part = t->tails[at];
            if (last[part] == line)
                continue;
            last[part] = line;
            list[pairs[2 * part] + pairs[2 * part + 1]++] = line;
        }
    return sum;
}

uint64_t plain_index_table(uint64_t n, TABLE_COLUMNS, uint64_t *index, size_t index_count, uint64_t *list,
                           size_t list_count)
{
    uint64_t pairs[2 * TOZBIERDU_MOST_PARTS], lines[TOZBIERDU_MOST_TAILS], total, result;
    struct view t = { n, heads_count, tails_count, heads, own, strikes, spans, tails };

    if (n > TOZBIERDU_MOST_PARTS)
        return REFUSED(TOZBIERDU_REFUSED_PARTS, 0);
    if (own_count != heads_count || strikes_count != heads_count || heads_count > TOZBIERDU_MOST_LINES
        || spans_count != 2 * heads_count || tails_count > TOZBIERDU_MOST_TAILS)
        return REFUSED(TOZBIERDU_REFUSED_LENGTHS, 0);
    if ((result = first_refusal(&t)) != 0)
        return result;
    total = build(&t, pairs, lines);
    if (index_count < 2 * n || list_count < total)
        return REFUSED(NO_ROOM, 0);
    memcpy(index, pairs, 2 * n * sizeof *index);
    memcpy(list, lines, total * sizeof *list);
    return total;
}

/* How many different parts a list has. */
static uint64_t different(const uint64_t *list, size_t count)
{
    uint64_t i, j, found = 0;

    for (i = 0; i < count; i++) {
        for (j = 0; j < i && list[j] != list[i]; j++)
            continue;
        found += j == i;
    }
    return found;
}

static uint64_t new_line_refusal(const struct growth *g)
{
    size_t i;

    if (g->head >= g->n)
        return REFUSED(TOZBIERDU_REFUSED_HEAD, g->lines);
    if (g->figure > TOZBIERDU_GREATEST)
        return REFUSED(TOZBIERDU_REFUSED_OWN, g->lines);
    if (g->mark > TOZBIERDU_STRIKE)
        return REFUSED(TOZBIERDU_REFUSED_STRIKE_MARK, g->lines);
    if (g->needed_count > TOZBIERDU_LONGEST_TAIL)
        return REFUSED(TOZBIERDU_REFUSED_SPAN, g->lines);
    for (i = 0; i < g->needed_count; i++)
        if (g->needed[i] >= g->n)
            return REFUSED(TOZBIERDU_REFUSED_TAIL, g->lines);
    return 0;
}

/* All but the answers; the columns are long enough for the counts. */
static uint64_t check_growth(const struct growth *g, uint64_t end)
{
    uint64_t pairs[2 * TOZBIERDU_MOST_PARTS], list[TOZBIERDU_MOST_TAILS], total, result;
    struct view t = { g->n, g->lines, g->listed, g->heads, g->own, g->strikes, g->spans, g->tails };

    if (g->n > TOZBIERDU_MOST_PARTS)
        return REFUSED(TOZBIERDU_REFUSED_PARTS, 0);
    if (g->lines + 1 > TOZBIERDU_MOST_LINES || g->listed > TOZBIERDU_MOST_TAILS
        || end + g->needed_count > TOZBIERDU_MOST_TAILS)
        return REFUSED(TOZBIERDU_REFUSED_LENGTHS, 0);
    if ((result = first_refusal(&t)) != 0 || (result = new_line_refusal(g)) != 0)
        return result;
    total = build(&t, pairs, list);
    if (g->index_count < 2 * g->n || g->list_count < total + different(g->needed, g->needed_count))
        return REFUSED(NO_ROOM, 0);
    if (memcmp(pairs, g->index, 2 * g->n * sizeof *pairs) != 0 || memcmp(list, g->list, total * sizeof *list) != 0)
        return REFUSED(WRONG_INDEX, 0);
    return 0;
}

uint64_t plain_append(struct growth *g)
{
    uint64_t end = g->lines == 0 ? 0 : g->spans[2 * g->lines - 2] + g->spans[2 * g->lines - 1], result;
    struct view t = { g->n, g->lines, g->listed, g->heads, g->own, g->strikes, g->spans, g->tails };

    if ((result = check_growth(g, end)) != 0)
        return result;
    if (!right(t, g->measure, g->figures, g->depths, g->chosen, g->pieces))
        return REFUSED(TOZBIERDU_REFUSED_ANSWERS, 0);
    g->heads[g->lines] = g->head;
    g->own[g->lines] = g->figure;
    g->strikes[g->lines] = g->mark;
    g->spans[2 * g->lines] = end;
    g->spans[2 * g->lines + 1] = g->needed_count;
    memcpy(g->tails + end, g->needed, g->needed_count * sizeof *g->tails);
    g->lines++;
    g->listed = end + g->needed_count;
    t.lines = g->lines;
    t.listed = g->listed;
    build(&t, g->index, g->list);
    fill(t, g->measure, g->figures, g->depths, g->chosen, g->pieces);
    return 0;
}
