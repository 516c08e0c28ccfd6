/* Indexing a table and appending a line, by the library and by plain C. */
#ifndef BENCH_GROWTH_H
#define BENCH_GROWTH_H

#include "../calls.h"
#include "../tables.h"

/* All that appending is lent, the counts in use and the new line. */
struct growth {
    uint64_t measure, n, lines, listed, head, figure, mark;
    uint64_t heads[TOZBIERDU_MOST_LINES], own[TOZBIERDU_MOST_LINES], strikes[TOZBIERDU_MOST_LINES];
    uint64_t spans[2 * TOZBIERDU_MOST_LINES], tails[TOZBIERDU_MOST_TAILS];
    uint64_t figures[TOZBIERDU_MOST_PARTS], depths[TOZBIERDU_MOST_PARTS], chosen[TOZBIERDU_MOST_PARTS],
        pieces[TOZBIERDU_MOST_PARTS];
    uint64_t index[2 * TOZBIERDU_MOST_PARTS], list[TOZBIERDU_MOST_TAILS];
    size_t index_count, list_count, needed_count;
    uint64_t needed[TOZBIERDU_LONGEST_TAIL];
};

#define USED_COLUMNS(g) \
    (g)->heads, (g)->lines, (g)->own, (g)->lines, (g)->strikes, (g)->lines, (g)->spans, 2 * (g)->lines, \
        (g)->tails, (g)->listed
#define ANSWERS_OF(g) (g)->figures, (g)->n, (g)->depths, (g)->n, (g)->chosen, (g)->n, (g)->pieces, (g)->n

uint64_t plain_index_table(uint64_t n, TABLE_COLUMNS, uint64_t *index, size_t index_count, uint64_t *list,
                           size_t list_count);

uint64_t plain_append(struct growth *g);

#endif
