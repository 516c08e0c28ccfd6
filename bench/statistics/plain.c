#include "statistics.h"

enum { MOST_RESULTS = 1000, GREATEST_RESULT = 1000000 };

static uint64_t check_sample(const uint64_t *results, size_t count)
{
    size_t i;

    if (count == 0 || count > MOST_RESULTS)
        return (uint64_t)22 << 32;
    for (i = 0; i < count; i++)
        if (results[i] > GREATEST_RESULT)
            return ((uint64_t)23 << 32) + i;
    return 0;
}

static uint64_t gcd(uint64_t a, uint64_t b)
{
    while (b != 0) {
        uint64_t rest = a % b;

        a = b;
        b = rest;
    }
    return a;
}

static void lowest(uint64_t numerator, uint64_t denominator, uint64_t *fraction)
{
    uint64_t d = gcd(numerator, denominator);

    fraction[0] = numerator / d;
    fraction[1] = denominator / d;
}

uint64_t plain_summarize(const uint64_t *results, size_t count, uint64_t *room, size_t places)
{
    uint64_t refused = check_sample(results, count), total = 0, squares = 0, fractions[4];
    size_t i;

    if (refused != 0)
        return refused;
    for (i = 0; i < count; i++) {
        total += results[i];
        squares += results[i] * results[i];
    }
    lowest(total, count, fractions);
    lowest(count * squares - total * total, (uint64_t)count * count, fractions + 2);
    if (places == 4)
        for (i = 0; i < 4; i++)
            room[i] = fractions[i];
    return 0;
}
