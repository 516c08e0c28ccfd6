/* Shuffling a column's bytes and back: the library's calls, and the same in plain C. */
#ifndef SHUFFLE_H
#define SHUFFLE_H

#include "tozbierdu.h"

uint64_t plain_shuffle(const uint64_t *own, size_t figures, uint8_t *room, size_t places);
uint64_t plain_unshuffle(const uint8_t *bytes, size_t places, uint64_t *own, size_t figures);

#endif
