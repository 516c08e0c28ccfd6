/* Tables and what is asked of them, lent to the calls between guard words. */
#ifndef TESTS_COUNTER_TABLE_H
#define TESTS_COUNTER_TABLE_H

#include "tozbierdu.h"

enum { HEADS, OWN, STRIKES, SPANS, TAILS, FIGURES, DEPTHS, LINES, PIECES, COLUMNS };
enum call { SETTLE, REPRICE, BILL, CALLS };
enum { GUARD = 4, ROOM = 20000 };

/* A table, its answers, and what is asked of it. */
struct table {
    uint64_t measure, n;
    size_t count[COLUMNS];
    uint64_t *at[COLUMNS];
    uint64_t line, figure, part;
    size_t room_count;
    uint64_t room[ROOM];
};

/* How many checks of the running test have failed; the first that does says what. */
extern int failures;

/* Whether a test could not be made here. */
extern int skipped;

void check(int holds, const char *what);
void expect(enum call call, const char *what, uint64_t got, uint64_t number, uint64_t place);

/* A guard word, and a copy of a column's places between guard words. */
uint64_t guard(size_t place);
uint64_t *lend(const uint64_t *places, size_t count);

/* The call on blocks that `lend` made. */
uint64_t invoke(enum call call, const struct table *t, uint64_t *const block[COLUMNS],
                uint64_t *room);

/* Calls with lent copies, checks what the call must keep, and takes over what it wrote. */
uint64_t run(enum call call, struct table *t);

/* A table of n parts and no line, with room for any table and one place more than the limits allow. */
struct table *blank(uint64_t n);
struct table *copy(const struct table *t);
void drop(struct table *t);

/* One more line, whose parts stand behind those of the line before; it is not struck. */
void add(struct table *t, uint64_t head, uint64_t own, size_t needs, const uint64_t *parts);

/* The table that the specification prices whole; the same, settled; and one as deep as can be. */
struct table *worked(uint64_t measure);
struct table *priced(uint64_t measure);
struct table *deepest(void);

/* Whether a column holds these places. */
int holds(const struct table *t, int column, const uint64_t *places);

/* The bill of a part is of this length and has these lines. */
void bill_is(struct table *t, uint64_t part, size_t length, const uint64_t *lines);

/* A file's tests, the last with no name. */
struct test {
    const char *name;
    void (*run)(void);
};

extern const struct test answer_tests[], refusal_tests[], room_tests[];

#endif
