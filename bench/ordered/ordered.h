/* Settling in order, by the library and by plain C. */
#ifndef BENCH_ORDERED_H
#define BENCH_ORDERED_H

#include "../calls.h"
#include "tozbierdu.h"

uint64_t plain_settle_ordered(uint64_t measure, uint64_t n, TABLE_COLUMNS, WRITTEN_COLUMNS);

#endif
