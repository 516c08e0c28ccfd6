/* Replaying a record: the library's call, and the same in plain C. */
#ifndef INVENTORY_H
#define INVENTORY_H

#include "../calls.h"
#include "tozbierdu.h"

enum { MOST_EVENTS = 4096, MOST_STOCK = 1000000 };

#define RECORD_COLUMNS \
    const uint64_t *parts, size_t parts_count, const uint64_t *received, size_t received_count, \
        uint64_t *stock, size_t stock_count, uint64_t *outcomes, size_t outcomes_count

uint64_t plain_replay(uint64_t measure, uint64_t n, TABLE_COLUMNS, ANSWER_COLUMNS, RECORD_COLUMNS);

#endif
