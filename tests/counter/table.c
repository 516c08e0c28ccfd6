#include <stdio.h>
#include <stdlib.h>
#include <string.h>

#include "table.h"

static const char *const call_names[CALLS] = { "settle", "reprice", "bill" };

int failures;
int skipped;

void check(int holds, const char *what)
{
    if (!holds && failures++ == 0)
        printf("  %s\n", what);
}

void expect(enum call call, const char *what, uint64_t got, uint64_t number, uint64_t place)
{
    uint64_t wanted = number << 32 | place;

    if (got != wanted && failures++ == 0)
        printf("  %s, %s: gave %llu %llu, and not %llu %llu\n", call_names[call], what,
               (unsigned long long)tozbierdu_number(got), (unsigned long long)tozbierdu_place(got),
               (unsigned long long)number, (unsigned long long)place);
}

uint64_t guard(size_t place)
{
    return UINT64_C(0xA5A55A5AC3C30000) + place;
}

/* A column's places between guard words, in a block of their own. */
uint64_t *lend(const uint64_t *places, size_t count)
{
    uint64_t *block = malloc((count + 2 * GUARD) * sizeof *block);
    size_t i;

    for (i = 0; i < GUARD; i++) {
        block[i] = guard(i);
        block[GUARD + count + i] = guard(GUARD + i);
    }
    if (count > 0)
        memcpy(block + GUARD, places, count * sizeof *block);
    return block;
}

static int guarded(const uint64_t *block, size_t count)
{
    size_t i;

    for (i = 0; i < GUARD; i++)
        if (block[i] != guard(i) || block[GUARD + count + i] != guard(GUARD + i))
            return 0;
    return 1;
}

uint64_t invoke(enum call call, const struct table *t, uint64_t *const block[COLUMNS],
                uint64_t *room)
{
#define COLUMN(c) block[c] + GUARD, t->count[c]
#define TABLE COLUMN(HEADS), COLUMN(OWN), COLUMN(STRIKES), COLUMN(SPANS), COLUMN(TAILS)
#define ANSWERS COLUMN(FIGURES), COLUMN(DEPTHS), COLUMN(LINES), COLUMN(PIECES)
    switch (call) {
    case SETTLE: return settle(t->measure, t->n, TABLE, ANSWERS);
    case REPRICE: return reprice(t->measure, t->n, TABLE, ANSWERS, t->line, t->figure);
    default: return bill(t->measure, t->n, TABLE, ANSWERS, t->part, room, t->room_count);
    }
}

static int may_write(enum call call, int column, uint64_t result)
{
    if (tozbierdu_refused(result) || call == BILL)
        return 0;
    return column >= FIGURES || (call == REPRICE && column == OWN);
}

/* Of the own figures only the named line's may have changed. */
static void others_kept(const struct table *t, const uint64_t *own)
{
    size_t i;

    for (i = 0; i < t->count[OWN]; i++)
        check(i == t->line || own[i] == t->at[OWN][i], "another line's figure was written");
}

static void room_kept(const struct table *t, const uint64_t *room, uint64_t result)
{
    size_t from = tozbierdu_refused(result) ? 0 : result;

    check(guarded(room, ROOM), "a write outside the room");
    check(from <= ROOM, "a length beyond the room");
    check(from > ROOM || memcmp(room + GUARD + from, t->room + from, (ROOM - from) * sizeof *room) == 0,
          "a write behind the bill, or on a refusal");
}

uint64_t run(enum call call, struct table *t)
{
    uint64_t *block[COLUMNS], *room = lend(t->room, ROOM), result;
    int c;

    for (c = 0; c < COLUMNS; c++)
        block[c] = lend(t->at[c], t->count[c]);
    result = invoke(call, t, block, room + GUARD);
    room_kept(t, room, call == BILL ? result : UINT64_MAX);
    for (c = 0; c < COLUMNS; c++) {
        size_t size = t->count[c] * sizeof *block[c];
        check(guarded(block[c], t->count[c]), "a write outside a column");
        if (may_write(call, c, result) && c == OWN)
            others_kept(t, block[c] + GUARD);
        if (size == 0)
            continue;
        if (!may_write(call, c, result))
            check(memcmp(block[c] + GUARD, t->at[c], size) == 0, "a write into a column that is kept");
        memcpy(t->at[c], block[c] + GUARD, size);
    }
    memcpy(t->room, room + GUARD, sizeof t->room);
    for (c = 0; c < COLUMNS; c++)
        free(block[c]);
    free(room);
    return result;
}

struct table *blank(uint64_t n)
{
    static const size_t most[COLUMNS] = { TOZBIERDU_MOST_LINES + 1, TOZBIERDU_MOST_LINES + 1,
        TOZBIERDU_MOST_LINES + 1, 2 * TOZBIERDU_MOST_LINES + 2, TOZBIERDU_MOST_TAILS + 1,
        TOZBIERDU_MOST_PARTS + 1, TOZBIERDU_MOST_PARTS + 1, TOZBIERDU_MOST_PARTS + 1, TOZBIERDU_MOST_PARTS + 1 };
    struct table *t = calloc(1, sizeof *t);
    int c;

    t->n = n;
    for (c = 0; c < COLUMNS; c++)
        t->at[c] = calloc(most[c], sizeof *t->at[c]);
    for (c = FIGURES; c < COLUMNS; c++)
        t->count[c] = n;
    t->room_count = ROOM;
    return t;
}

struct table *copy(const struct table *t)
{
    struct table *u = blank(t->n);
    int c;

    for (c = 0; c < COLUMNS; c++)
        memcpy(u->at[c], t->at[c], t->count[c] * sizeof *t->at[c]);
    for (c = 0; c < COLUMNS; c++)
        u->count[c] = t->count[c];
    u->measure = t->measure;
    u->line = t->line;
    u->figure = t->figure;
    u->part = t->part;
    return u;
}

void drop(struct table *t)
{
    int c;

    for (c = 0; c < COLUMNS; c++)
        free(t->at[c]);
    free(t);
}

void add(struct table *t, uint64_t head, uint64_t own, size_t needs, const uint64_t *parts)
{
    size_t i, line = t->count[HEADS];

    t->at[HEADS][line] = head;
    t->at[OWN][line] = own;
    t->at[STRIKES][line] = TOZBIERDU_STANDS;
    t->at[SPANS][2 * line] = t->count[TAILS];
    t->at[SPANS][2 * line + 1] = needs;
    for (i = 0; i < needs; i++)
        t->at[TAILS][t->count[TAILS] + i] = parts[i];
    t->count[HEADS]++;
    t->count[OWN]++;
    t->count[STRIKES]++;
    t->count[SPANS] += 2;
    t->count[TAILS] += needs;
}

struct table *worked(uint64_t measure)
{
    static const uint64_t two[] = { 0, 1 }, three[] = { 2, 1, 1 }, four[] = { 4 };
    struct table *t = blank(5);

    add(t, 0, 1200, 0, NULL);
    add(t, 1, 300, 0, NULL);
    add(t, 2, 500, 2, two);
    add(t, 2, 2100, 0, NULL);
    add(t, 3, 0, 3, three);
    add(t, 4, 10, 1, four);
    t->measure = measure;
    return t;
}

struct table *priced(uint64_t measure)
{
    struct table *t = worked(measure);

    expect(SETTLE, "the worked table", run(SETTLE, t), 0, 0);
    return t;
}

/* As deep as a table can be, with the deep part listed last. */
struct table *deepest(void)
{
    uint64_t parts[TOZBIERDU_LONGEST_TAIL] = { 0 }, part;
    struct table *t = blank(TOZBIERDU_MOST_PARTS);

    add(t, 0, 1, 0, NULL);
    for (part = 1; part < t->n; part++) {
        parts[TOZBIERDU_LONGEST_TAIL - 1] = part - 1;
        add(t, part, 0, TOZBIERDU_LONGEST_TAIL, parts);
    }
    t->part = t->n - 1;
    return t;
}

int holds(const struct table *t, int column, const uint64_t *places)
{
    return memcmp(t->at[column], places, t->count[column] * sizeof *places) == 0;
}

void bill_is(struct table *t, uint64_t part, size_t length, const uint64_t *lines)
{
    t->part = part;
    memset(t->room, 0xEE, sizeof t->room);
    expect(BILL, "a bill's length", run(BILL, t), 0, length);
    check(memcmp(t->room, lines, length * sizeof *lines) == 0, "another bill");
}
