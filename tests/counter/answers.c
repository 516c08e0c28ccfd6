/* The specification's examples through C, and demand 3. */
#include <string.h>

#include "table.h"

static void test_worked_cost(void)
{
    static const uint64_t figures[] = { 1200, 300, 2000, 2600, 0 }, depths[] = { 1, 1, 2, 3, 0 },
        lines[] = { 0, 1, 2, 4, 0 }, pieces[] = { 1, 1, 2, 4, 0 }, listed[] = { 4, 2, 0, 1, 1, 1 };
    struct table *t = priced(TOZBIERDU_COST);

    check(holds(t, FIGURES, figures) && holds(t, DEPTHS, depths) && holds(t, LINES, lines), "answers");
    check(holds(t, PIECES, pieces), "piece counts");
    bill_is(t, 3, 6, listed);
}

static void test_worked_days(void)
{
    static const uint64_t figures[] = { 1200, 300, 1700, 1700, 0 }, lines[] = { 0, 1, 2, 4, 0 },
        pieces[] = { 1, 1, 2, 4, 0 };
    struct table *t = priced(TOZBIERDU_DAYS);

    check(holds(t, FIGURES, figures) && holds(t, LINES, lines) && holds(t, PIECES, pieces), "answers");
}

/* In grade, and line 4 raised to 250 and to 400: part 3 is as good as its weakest part. */
static void test_worked_grade(void)
{
    static const uint64_t figures[] = { 1200, 300, 2100, 0, 0 }, depths[] = { 1, 1, 1, 2, 0 },
        lines[] = { 0, 1, 3, 4, 0 }, listed[] = { 4, 3, 1, 1 };
    struct table *t = priced(TOZBIERDU_GRADE);

    check(holds(t, FIGURES, figures) && holds(t, DEPTHS, depths) && holds(t, LINES, lines), "answers");
    bill_is(t, 3, 4, listed);
    t->line = 4;
    t->figure = 250;
    expect(REPRICE, "line 4 to 250", run(REPRICE, t), 0, 0);
    check(t->at[FIGURES][3] == 250, "raised to the own figure");
    t->figure = 400;
    expect(REPRICE, "line 4 to 400", run(REPRICE, t), 0, 0);
    check(t->at[FIGURES][3] == 300, "raised to the weakest part");
}

static void test_worked_repriced(void)
{
    static const uint64_t own[] = { 1200, 500, 500, 2100, 0, 10 }, depths[] = { 1, 1, 1, 2, 0 },
        figures[] = { 1200, 500, 2100, 3100, 0 }, lines[] = { 0, 1, 3, 4, 0 }, pieces[] = { 1, 1, 1, 3, 0 },
        listed[] = { 4, 3, 1, 1 };
    struct table *t = priced(TOZBIERDU_COST);

    t->line = 1;
    t->figure = 500;
    expect(REPRICE, "line 1 to 500", run(REPRICE, t), 0, 0);
    check(holds(t, OWN, own), "own figures");
    check(holds(t, FIGURES, figures) && holds(t, DEPTHS, depths) && holds(t, LINES, lines), "answers");
    check(holds(t, PIECES, pieces), "piece counts");
    bill_is(t, 3, 4, listed);
}

/* Line 0 is struck and keeps its figure; taken back, the answers of before. */
static void test_worked_struck(void)
{
    static const uint64_t own[] = { 1200, 300, 500, 2100, 0, 10 }, depths[] = { 0, 1, 1, 2, 0 },
        figures[] = { 0, 300, 2100, 2700, 0 }, lines[] = { 0, 1, 3, 4, 0 }, pieces[] = { 0, 1, 1, 3, 0 },
        listed[] = { 4, 3, 1, 1 };
    struct table *t = priced(TOZBIERDU_COST), *before = copy(t);

    t->at[STRIKES][0] = TOZBIERDU_STRIKE;
    expect(SETTLE, "line 0 struck", run(SETTLE, t), 0, 0);
    check(holds(t, OWN, own), "own figures");
    check(holds(t, FIGURES, figures) && holds(t, DEPTHS, depths) && holds(t, LINES, lines), "answers");
    check(holds(t, PIECES, pieces), "piece counts");
    bill_is(t, 3, 4, listed);
    t->line = 1;
    t->figure = 300;
    expect(REPRICE, "a line beside a struck one", run(REPRICE, t), 0, 0);
    t->at[STRIKES][0] = TOZBIERDU_STANDS;
    expect(SETTLE, "line 0 taken back", run(SETTLE, t), 0, 0);
    check(holds(t, OWN, own) && holds(t, FIGURES, before->at[FIGURES]) && holds(t, DEPTHS, before->at[DEPTHS])
          && holds(t, LINES, before->at[LINES]) && holds(t, PIECES, before->at[PIECES]), "the answers of before");
}

/* A part at the ceiling, and one over it; both have a bill. */
static void test_ceiling(void)
{
    uint64_t ten[10], part, i;
    struct table *t = blank(5);

    add(t, 0, TOZBIERDU_GREATEST, 0, NULL);
    for (part = 1; part < 4; part++) {
        for (i = 0; i < 10; i++)
            ten[i] = part - 1;
        add(t, part, 0, 10, ten);
    }
    for (i = 0; i < 10; i++)
        ten[i] = 2;
    add(t, 4, 1, 10, ten);
    expect(SETTLE, "the ceiling", run(SETTLE, t), 0, 0);
    check(t->at[FIGURES][3] == TOZBIERDU_CEILING, "the ceiling is made");
    check(t->at[FIGURES][4] == TOZBIERDU_OVER, "one more is over");
    check(t->at[PIECES][3] == 1000 && t->at[PIECES][4] == 1000, "a thousand pieces");
    t->part = 4;
    expect(BILL, "an over part", run(BILL, t), 0, 1111);
}

/* A chain of tens: a thousand million pieces, and no more however many there are. */
static void test_most_pieces(void)
{
    uint64_t ten[10], part, i, wanted = 1;
    struct table *t = blank(12);

    add(t, 0, 0, 0, NULL);
    for (part = 1; part < t->n; part++) {
        for (i = 0; i < 10; i++)
            ten[i] = part - 1;
        add(t, part, 0, 10, ten);
    }
    expect(SETTLE, "tens of tens", run(SETTLE, t), 0, 0);
    for (part = 0; part < t->n; part++) {
        check(t->at[PIECES][part] == wanted, "a power of ten, or the cap");
        wanted = wanted * 10 < TOZBIERDU_MOST_PIECES ? wanted * 10 : TOZBIERDU_MOST_PIECES;
    }
    t->at[PIECES][11] = TOZBIERDU_MOST_PIECES + 1;
    expect(REPRICE, "a count above the cap", run(REPRICE, t), 8, 0);
}

/* In days a chain of 1,000 lines of the greatest figure comes to the ceiling, and one more is over. */
static void test_days_ceiling(void)
{
    uint64_t part, before;
    struct table *t = blank(1001);

    t->measure = TOZBIERDU_DAYS;
    for (part = 0; part < t->n; part++) {
        before = part - 1;
        add(t, part, TOZBIERDU_GREATEST, part > 0, &before);
    }
    expect(SETTLE, "the ceiling in days", run(SETTLE, t), 0, 0);
    check(t->at[FIGURES][999] == TOZBIERDU_CEILING, "the ceiling is made");
    check(t->at[FIGURES][1000] == TOZBIERDU_OVER, "one more is over");
    t->part = 1000;
    expect(BILL, "an over part", run(BILL, t), 0, 1001);
}

static uint64_t seed = 1;

static uint64_t below(uint64_t n)
{
    seed ^= seed << 13;
    seed ^= seed >> 7;
    seed ^= seed << 17;
    return seed % n;
}

static struct table *chance(void)
{
    struct table *t = blank(1 + below(8));
    uint64_t lines = 1 + below(16), parts[4], needs, i;

    while (lines-- > 0) {
        needs = below(4);
        for (i = 0; i < needs; i++)
            parts[i] = below(t->n);
        add(t, below(t->n), below(20), needs, parts);
        if (below(10) == 0)
            t->at[STRIKES][t->count[STRIKES] - 1] = TOZBIERDU_STRIKE;
    }
    t->measure = below(3);
    return t;
}

static uint64_t count_in_bill(struct table *t, uint64_t part, uint64_t line)
{
    uint64_t length, i, count = 0;

    t->part = part;
    length = run(BILL, t);
    check(!tozbierdu_refused(length), "a made part has a bill");
    for (i = 0; i < length && i < ROOM; i++)
        count += t->room[i] == line;
    return count;
}

/* What one part of two tables owes, of which the new one has line e raised by d. */
static void rises(struct table *old, struct table *new, uint64_t part, uint64_t e, uint64_t d)
{
    uint64_t rise = new->at[FIGURES][part] - old->at[FIGURES][part];

    check((old->at[DEPTHS][part] == 0) == (new->at[DEPTHS][part] == 0), "the same parts are unmade");
    if (old->at[DEPTHS][part] == 0)
        return;
    check(new->at[FIGURES][part] >= old->at[FIGURES][part], "no part falls");
    if (old->measure != TOZBIERDU_COST) {
        check(rise <= d, "in days and in grade, by at most d");
        return;
    }
    check(rise >= d * count_in_bill(new, part, e), "at least d times the count in the new bill");
    check(rise <= d * count_in_bill(old, part, e), "at most d times the count in the old bill");
}

static int same_answers(const struct table *t, const struct table *u)
{
    return holds(t, OWN, u->at[OWN]) && holds(t, FIGURES, u->at[FIGURES])
           && holds(t, DEPTHS, u->at[DEPTHS]) && holds(t, LINES, u->at[LINES]) && holds(t, PIECES, u->at[PIECES]);
}

/* Settling one of two tables and repricing the line leaves what settling the other does. */
static void compare(struct table *old, uint64_t e, uint64_t d)
{
    struct table *new = copy(old), *changed;
    uint64_t part;

    new->at[OWN][e] += d;
    expect(SETTLE, "the old table", run(SETTLE, old), 0, 0);
    expect(SETTLE, "the new table", run(SETTLE, new), 0, 0);
    changed = copy(old);
    changed->line = e;
    changed->figure = old->at[OWN][e] + d;
    expect(REPRICE, "up", run(REPRICE, changed), 0, 0);
    check(same_answers(changed, new), "raised, the new table's answers");
    changed->figure = old->at[OWN][e];
    expect(REPRICE, "down", run(REPRICE, changed), 0, 0);
    check(same_answers(changed, old), "lowered, the old table's answers");
    for (part = 0; part < old->n; part++)
        rises(old, new, part, e, d);
    drop(new);
    drop(changed);
}

static void test_demand_3(void)
{
    int i;

    for (i = 0; i < 3000 && failures == 0; i++) {
        struct table *t = chance();
        uint64_t e = below(t->count[HEADS]);
        if (t->at[STRIKES][e] == TOZBIERDU_STANDS)
            compare(t, e, below(25));
        drop(t);
    }
}

const struct test answer_tests[] = {
    { "worked_cost", test_worked_cost },
    { "worked_days", test_worked_days },
    { "worked_grade", test_worked_grade },
    { "worked_repriced", test_worked_repriced },
    { "worked_struck", test_worked_struck },
    { "ceiling", test_ceiling },
    { "most_pieces", test_most_pieces },
    { "days_ceiling", test_days_ceiling },
    { "demand_3", test_demand_3 },
    { NULL, NULL },
};
