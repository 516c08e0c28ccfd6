/* Summarizing a sample: the library's call, and the same in plain C. */
#ifndef STATISTICS_H
#define STATISTICS_H

#include "tozbierdu.h"

uint64_t plain_summarize(const uint64_t *results, size_t count, uint64_t *room, size_t places);

#endif
