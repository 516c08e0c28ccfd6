/* Replaying in plain C: the same checks, the same passes over a tail, and copies that are copied out. */
#include <string.h>

#include "../common.h"
#include "inventory.h"

static uint64_t count(uint64_t part, const uint64_t *tail, size_t size)
{
    uint64_t times = 0;
    size_t k;

    for (k = 0; k < size; k++)
        times += tail[k] == part;
    return times;
}

static int suffices(const uint64_t *tail, size_t size, const uint64_t *counts)
{
    size_t k;

    for (k = 0; k < size; k++)
        if (count(tail[k], tail, size) > counts[tail[k]])
            return 0;
    return 1;
}

static uint64_t fulfil(uint64_t part, const uint64_t *spans, const uint64_t *tails, const uint64_t *depths,
                       const uint64_t *lines, uint64_t *counts)
{
    const uint64_t *tail;
    size_t size, k;

    if (counts[part] > 0) {
        counts[part]--;
        return 1;
    }
    if (depths[part] == 0)
        return 3;
    tail = tails + spans[2 * lines[part]];
    size = spans[2 * lines[part] + 1];
    if (size == 0 || !suffices(tail, size, counts))
        return 3;
    for (k = 0; k < size; k++)
        counts[tail[k]]--;
    return 2;
}

uint64_t plain_replay(uint64_t measure, uint64_t n, TABLE_COLUMNS, ANSWER_COLUMNS, RECORD_COLUMNS)
{
    uint64_t counts[TOZBIERDU_MOST_PARTS], numbers[MOST_EVENTS], verdict, i;

    if (measure > TOZBIERDU_DAYS)
        return REFUSED(TOZBIERDU_REFUSED_MEASURE, 0);
    if (n > TOZBIERDU_MOST_PARTS)
        return REFUSED(TOZBIERDU_REFUSED_PARTS, 0);
    if (received_count != parts_count || outcomes_count != parts_count || parts_count > MOST_EVENTS)
        return REFUSED(TOZBIERDU_REFUSED_LENGTHS, 0);
    verdict = plain.check_answers(measure, n, heads, heads_count, own, own_count, strikes, strikes_count, spans,
                                  spans_count, tails, tails_count, figures, figures_count, depths, depths_count,
                                  lines, lines_count, pieces, pieces_count);
    if (verdict > 1)
        return verdict;
    if (stock_count != n)
        return REFUSED(TOZBIERDU_REFUSED_ANSWER_LENGTHS, 0);
    if (verdict == 0)
        return REFUSED(TOZBIERDU_REFUSED_ANSWERS, 0);
    for (i = 0; i < n; i++)
        if (stock[i] > MOST_STOCK)
            return REFUSED(TOZBIERDU_REFUSED_STOCK, i);
    memcpy(counts, stock, n * sizeof *counts);
    for (i = 0; i < parts_count; i++) {
        uint64_t part = parts[i];

        if (part >= n)
            return REFUSED(TOZBIERDU_REFUSED_EVENT, i);
        if (received[i] == 0) {
            numbers[i] = fulfil(part, spans, tails, depths, lines, counts);
            continue;
        }
        if (received[i] > MOST_STOCK - counts[part])
            return REFUSED(TOZBIERDU_REFUSED_STOCK, i);
        counts[part] += received[i];
        numbers[i] = 0;
    }
    memcpy(stock, counts, n * sizeof *counts);
    memcpy(outcomes, numbers, parts_count * sizeof *numbers);
    return 0;
}
