/* Tables of every kind, of any number of parts, four lines to a part. */
#ifndef BENCH_TABLES_H
#define BENCH_TABLES_H

#include "tozbierdu.h"

struct table {
    uint64_t n;
    size_t lines, listed;
    uint64_t heads[TOZBIERDU_MOST_LINES], own[TOZBIERDU_MOST_LINES], strikes[TOZBIERDU_MOST_LINES];
    uint64_t spans[2 * TOZBIERDU_MOST_LINES], tails[TOZBIERDU_MOST_TAILS];
};

enum { KINDS = 7 };

extern const char *const kind_names[KINDS];

/* The table of a kind with n parts; the same for the same arguments. */
void make_table(struct table *t, int kind, uint64_t n);

#endif
