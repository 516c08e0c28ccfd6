/* The calls as functions of one maker: the library, or a yardstick written by hand in C. */
#ifndef BENCH_CALLS_H
#define BENCH_CALLS_H

#include <stddef.h>
#include <stdint.h>

/* The columns of a table, and its answers, as parameters: lent to be read, or to be written. */
#define TABLE_COLUMNS \
    const uint64_t *heads, size_t heads_count, const uint64_t *own, size_t own_count, \
        const uint64_t *strikes, size_t strikes_count, const uint64_t *spans, size_t spans_count, \
        const uint64_t *tails, size_t tails_count
#define ANSWER_COLUMNS \
    const uint64_t *figures, size_t figures_count, const uint64_t *depths, size_t depths_count, \
        const uint64_t *lines, size_t lines_count, const uint64_t *pieces, size_t pieces_count
#define CHANGED_COLUMNS \
    const uint64_t *heads, size_t heads_count, uint64_t *own, size_t own_count, \
        const uint64_t *strikes, size_t strikes_count, const uint64_t *spans, size_t spans_count, \
        const uint64_t *tails, size_t tails_count
#define WRITTEN_COLUMNS \
    uint64_t *figures, size_t figures_count, uint64_t *depths, size_t depths_count, \
        uint64_t *lines, size_t lines_count, uint64_t *pieces, size_t pieces_count

struct maker {
    uint64_t (*settle)(uint64_t measure, uint64_t n, TABLE_COLUMNS, WRITTEN_COLUMNS);
    uint64_t (*check_answers)(uint64_t measure, uint64_t n, TABLE_COLUMNS, ANSWER_COLUMNS);
    uint64_t (*reprice)(uint64_t measure, uint64_t n, CHANGED_COLUMNS, WRITTEN_COLUMNS, uint64_t line,
                        uint64_t figure);
    uint64_t (*bill)(uint64_t measure, uint64_t n, TABLE_COLUMNS, ANSWER_COLUMNS, uint64_t part,
                     uint64_t *room, size_t room_count);
};

extern const struct maker plain, strongest;

#endif
