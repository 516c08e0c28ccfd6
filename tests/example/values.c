/*
 * Stands for bill in the example, in which the compiler has filled the variables that the program
 * gives no value: the room must be lent with values, as the header asks.
 */
#include <stdio.h>
#include <stdlib.h>
#include <string.h>

#include "tozbierdu.h"

uint64_t bill(uint64_t measure, uint64_t n,
              const uint64_t *heads, size_t heads_count,
              const uint64_t *own, size_t own_count,
              const uint64_t *strikes, size_t strikes_count,
              const uint64_t *spans, size_t spans_count,
              const uint64_t *tails, size_t tails_count,
              const uint64_t *weights, size_t weights_count,
              const uint64_t *depths, size_t depths_count,
              const uint64_t *edges, size_t edges_count,
              const uint64_t *pieces, size_t pieces_count,
              uint64_t part,
              uint64_t *room, size_t room_count)
{
    uint64_t filling;
    size_t i;

    memset(&filling, FILLING, sizeof filling);
    for (i = 0; i < room_count; i++)
        if (room[i] == filling) {
            fprintf(stderr, "place %zu of the room holds no value\n", i);
            exit(1);
        }
    return 0;
}
