#include "shuffle.h"

uint64_t plain_shuffle(const uint64_t *own, size_t k, uint8_t *room, size_t places)
{
    size_t i;

    if (places != 8 * k)
        return (uint64_t)27 << 32;
    for (i = 0; i < k; i++) {
        uint64_t x = own[i];

        room[i] = (uint8_t)x;
        room[k + i] = (uint8_t)(x >> 8);
        room[2 * k + i] = (uint8_t)(x >> 16);
        room[3 * k + i] = (uint8_t)(x >> 24);
        room[4 * k + i] = (uint8_t)(x >> 32);
        room[5 * k + i] = (uint8_t)(x >> 40);
        room[6 * k + i] = (uint8_t)(x >> 48);
        room[7 * k + i] = (uint8_t)(x >> 56);
    }
    return 0;
}

uint64_t plain_unshuffle(const uint8_t *bytes, size_t places, uint64_t *own, size_t k)
{
    size_t i;

    if (places != 8 * k)
        return (uint64_t)27 << 32;
    for (i = 0; i < k; i++)
        own[i] = (uint64_t)bytes[i] | (uint64_t)bytes[k + i] << 8 | (uint64_t)bytes[2 * k + i] << 16 |
                 (uint64_t)bytes[3 * k + i] << 24 | (uint64_t)bytes[4 * k + i] << 32 |
                 (uint64_t)bytes[5 * k + i] << 40 | (uint64_t)bytes[6 * k + i] << 48 |
                 (uint64_t)bytes[7 * k + i] << 56;
    return 0;
}
