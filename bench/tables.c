#include "tables.h"

enum { ACYCLIC, CYCLIC, CHAIN, WIDE, TIES, IN_ORDER, BOUGHT };

const char *const kind_names[KINDS] = { "acyclic", "cyclic", "chain", "wide", "ties", "in_order", "bought" };

static uint64_t seed;

static uint64_t below(uint64_t n)
{
    seed ^= seed << 13;
    seed ^= seed >> 7;
    seed ^= seed << 17;
    return seed % n;
}

/* One more line, which needs no part yet. */
static void begin(struct table *t, uint64_t head, uint64_t own)
{
    t->heads[t->lines] = head;
    t->own[t->lines] = own;
    t->strikes[t->lines] = TOZBIERDU_STANDS;
    t->spans[2 * t->lines] = t->listed;
    t->spans[2 * t->lines + 1] = 0;
    t->lines++;
}

/* One more part that the last line needs, while the table has places for it: 16 to a part. */
static void need(struct table *t, uint64_t part)
{
    uint64_t *length = &t->spans[2 * t->lines - 1];

    if (t->listed < TOZBIERDU_LONGEST_TAIL * t->n && *length < TOZBIERDU_LONGEST_TAIL) {
        t->tails[t->listed++] = part;
        ++*length;
    }
}

/* Few parts in most lines, up to 16 in some: four on average. */
static uint64_t some(void)
{
    return below(8) == 0 ? 1 + below(16) : below(8);
}

/* A line for `head` that needs parts below `limit`. */
static void random_line(struct table *t, uint64_t head, uint64_t own, uint64_t limit)
{
    uint64_t wanted = limit == 0 ? 0 : some();

    begin(t, head, own);
    while (wanted-- > 0)
        need(t, below(limit));
}

static void chain_line(struct table *t, uint64_t head, uint64_t k)
{
    begin(t, head, k);
    if (head > 0)
        for (; k-- > 0; need(t, head - 1))
            continue;
}

/* The lower half is bought; a part of the upper half needs 16 parts of it at once, or is dear. */
static void wide_line(struct table *t, uint64_t head, uint64_t k)
{
    uint64_t i, half = t->n / 2;

    begin(t, head, head >= half && k >= 2 ? 1000000 : 1 + below(1000));
    if (head >= half && k < 2)
        for (i = 0; i < TOZBIERDU_LONGEST_TAIL; i++)
            need(t, below(half));
}

void make_table(struct table *t, int kind, uint64_t n)
{
    uint64_t i;

    seed = UINT64_C(0x9E3779B97F4A7C15) ^ (n << 8) ^ (uint64_t)kind;
    t->n = n;
    t->lines = t->listed = 0;
    for (i = 0; i < 4 * n; i++) {
        uint64_t head = i / 4, k = i % 4;
        switch (kind) {
        case ACYCLIC: random_line(t, head, below(1000), head); break;
        case CYCLIC: random_line(t, head, below(1000), n); break;
        case CHAIN: chain_line(t, head, k == 0 ? 1 : k); break;
        case WIDE: wide_line(t, head, k); break;
        case TIES: random_line(t, head, 0, n); break;
        case IN_ORDER: random_line(t, head, 1000 * head + k, k == 0 ? 0 : head); break;
        default: begin(t, head, below(1000000)); break;
        }
    }
}
