/* Every refusal of the calls with its number and place, and the order in which they are tried. */
#include "table.h"

/* Every call gives this refusal of the table, with the same number and place. */
static void all_refuse(struct table *t, const char *what, uint64_t number, uint64_t place)
{
    int call;

    for (call = 0; call < CALLS; call++)
        expect(call, what, run(call, t), number, place);
}

static void test_refusal_1(void)
{
    struct table *t = blank(0);

    t->n = 1025;
    all_refuse(t, "1,025 parts", 1, 0);
    t->n = UINT64_MAX;
    all_refuse(t, "2^64 - 1 parts", 1, 0);
}

static void test_refusal_2(void)
{
    struct table *t;
    size_t i;
    int c;

    for (c = HEADS; c <= SPANS; c++) {
        t = priced(0);
        t->count[c]--;
        all_refuse(t, "a column one shorter", 2, 0);
        t->count[c] += 2;
        all_refuse(t, "a column one longer", 2, 0);
    }
    t = blank(1);
    for (i = 0; i < 4097; i++)
        add(t, 0, 0, 0, NULL);
    all_refuse(t, "4,097 lines", 2, 0);
    t = priced(0);
    t->count[TAILS] = 16385;
    all_refuse(t, "16,385 places of tails", 2, 0);
}

/* A fault of one line, which is the place; the other lines are in order. */
static void fault(int column, size_t offset, uint64_t value, const char *what, uint64_t number)
{
    static const size_t lines[] = { 0, 1, 2047, 4095 };
    size_t i, line, width = column == SPANS ? 2 : 1;
    const uint64_t part = 0;

    for (i = 0; i < sizeof lines / sizeof *lines; i++) {
        struct table *t = blank(1);
        for (line = 0; line < TOZBIERDU_MOST_LINES; line++)
            add(t, 0, 7, 1, &part);
        t->at[column][width * lines[i] + offset] = value;
        all_refuse(t, what, number, lines[i]);
        drop(t);
    }
}

static void test_refusal_3(void)
{
    fault(HEADS, 0, 1, "a head equal to n", 3);
    fault(HEADS, 0, UINT64_MAX, "a head of 2^64 - 1", 3);
}

static void test_refusal_4(void)
{
    struct table *t = priced(0);

    fault(OWN, 0, TOZBIERDU_GREATEST + 1, "a figure above the greatest", 4);
    fault(OWN, 0, UINT64_MAX, "a figure of 2^64 - 1", 4);
    t->at[STRIKES][3] = TOZBIERDU_STRIKE;
    t->at[OWN][3] = TOZBIERDU_GREATEST + 1;
    all_refuse(t, "a struck line above the greatest", 4, 3);
}

/* What once struck a line. */
static void test_old_mark(void)
{
    fault(OWN, 0, UINT64_C(1000000001), "1,000,000,001 for a figure", 4);
}

static void test_refusal_21(void)
{
    struct table *t = priced(0);

    fault(STRIKES, 0, 2, "a mark of 2", 21);
    fault(STRIKES, 0, UINT64_C(1000000001), "a mark of 1,000,000,001", 21);
    fault(STRIKES, 0, UINT64_MAX, "a mark of 2^64 - 1", 21);
    t->at[STRIKES][2] = 2;
    t->at[SPANS][5] = 17;
    all_refuse(t, "a mark before a span", 21, 2);
    t->at[OWN][2] = UINT64_MAX;
    all_refuse(t, "a figure before a mark", 4, 2);
    t->at[HEADS][2] = 5;
    all_refuse(t, "a head before a mark", 3, 2);
    t->at[SPANS][3] = 17;
    all_refuse(t, "an earlier line before a mark", 5, 1);
}

static void test_refusal_5(void)
{
    struct table *t = priced(0);

    fault(SPANS, 0, UINT64_MAX, "a span at 2^64 - 1", 5);
    fault(SPANS, 1, 17, "a span of 17", 5);
    fault(SPANS, 1, UINT64_MAX, "a span of 2^64 - 1", 5);
    t->at[SPANS][8] = 1;
    all_refuse(t, "a span one place early", 5, 4);
    t->at[SPANS][8] = 2;
    t->at[SPANS][11] = 2;
    all_refuse(t, "a span past the end", 5, 5);
}

static void test_refusal_6(void)
{
    fault(TAILS, 0, 1, "a needed part equal to n", 6);
    fault(TAILS, 0, UINT64_MAX, "a needed part of 2^64 - 1", 6);
}

static void test_refusal_7(void)
{
    int c;

    for (c = FIGURES; c < COLUMNS; c++) {
        struct table *t = priced(0);
        t->count[c]--;
        all_refuse(t, "an answer column one shorter", 7, 0);
        t->count[c] += 2;
        all_refuse(t, "an answer column one longer", 7, 0);
        t->count[c] = 0;
        all_refuse(t, "an answer column of no place", 7, 0);
    }
}

static void test_refusal_8(void)
{
    int c, part;

    for (c = FIGURES; c < COLUMNS; c++)
        for (part = 0; part < 5; part++) {
            struct table *t = priced(0);
            t->part = 3;
            t->at[c][part] += 1;
            expect(REPRICE, "answers off by 1", run(REPRICE, t), 8, 0);
            expect(BILL, "answers off by 1", run(BILL, t), 8, 0);
            t->at[c][part] = UINT64_MAX;
            expect(REPRICE, "answers of 2^64 - 1", run(REPRICE, t), 8, 0);
            expect(BILL, "answers of 2^64 - 1", run(BILL, t), 8, 0);
        }
}

static void test_refusal_9(void)
{
    struct table *t = priced(0);

    t->line = 6;
    expect(REPRICE, "line 6 of 6", run(REPRICE, t), 9, 0);
    t->line = UINT64_MAX;
    expect(REPRICE, "line 2^64 - 1", run(REPRICE, t), 9, 0);
    t->line = 3;
    t->at[STRIKES][3] = TOZBIERDU_STRIKE;
    expect(REPRICE, "a struck line", run(REPRICE, t), 9, 0);
    check(t->at[OWN][3] == 2100, "a struck line keeps its figure");
}

static void test_refusal_10(void)
{
    struct table *t = priced(0);

    t->figure = TOZBIERDU_GREATEST + 1;
    expect(REPRICE, "to one above the greatest", run(REPRICE, t), 10, 0);
    t->figure = UINT64_MAX;
    expect(REPRICE, "to 2^64 - 1", run(REPRICE, t), 10, 0);
    t->figure = TOZBIERDU_GREATEST;
    expect(REPRICE, "to the greatest", run(REPRICE, t), 0, 0);
}

static void test_refusals_11_and_12(void)
{
    struct table *t = priced(0);

    t->part = 5;
    expect(BILL, "part 5 of 5", run(BILL, t), 11, 0);
    t->part = UINT64_MAX;
    expect(BILL, "part 2^64 - 1", run(BILL, t), 11, 0);
    t->part = 4;
    expect(BILL, "an unmade part", run(BILL, t), 12, 0);
}

static void test_refusal_13(void)
{
    struct table *t = priced(0);

    t->part = 3;
    for (t->room_count = 0; t->room_count < 6; t->room_count++)
        expect(BILL, "a bill of 6 in less room", run(BILL, t), 13, 0);
    expect(BILL, "a bill of 6 in 6 places", run(BILL, t), 0, 6);
}

/* Every measure's number but 0, 1 and 2 is refused, before everything else. */
static void test_refusal_16(void)
{
    static const uint64_t numbers[] = { 3, 4, 255, 256, 257, 258, UINT64_C(1) << 31, UINT64_C(1) << 32,
        (UINT64_C(1) << 32) + 1, UINT64_C(1) << 63, UINT64_MAX - 1, UINT64_MAX };
    size_t i;

    for (i = 0; i < sizeof numbers / sizeof *numbers; i++) {
        struct table *t = priced(0), *u = blank(0);
        t->measure = u->measure = numbers[i];
        all_refuse(t, "a measure that is none", 16, 0);
        u->n = 1025;
        all_refuse(u, "a measure that is none, and 1,025 parts", 16, 0);
    }
}

/* Numbers of a table that are in order once they are cut to 32 bits. */
#define PAST(low) ((UINT64_C(1) << 32) + (low))

static void test_past_32_bits_tables(void)
{
    struct table *t = priced(0);

    t->n = PAST(5);
    all_refuse(t, "2^32 + 5 parts", 1, 0);
    fault(HEADS, 0, PAST(0), "a head of 2^32", 3);
    fault(OWN, 0, PAST(7), "a figure of 2^32 + 7", 4);
    fault(STRIKES, 0, PAST(0), "a mark of 2^32", 21);
    fault(STRIKES, 0, PAST(1), "a mark of 2^32 + 1", 21);
    fault(SPANS, 1, PAST(1), "a span of 2^32 + 1", 5);
    fault(TAILS, 0, PAST(0), "a needed part of 2^32", 6);
    t = priced(0);
    t->at[SPANS][10] = PAST(5);
    all_refuse(t, "a span at 2^32 + 5", 5, 5);
}

/* The same of what is asked of a table, and of its answers. */
static void test_past_32_bits_calls(void)
{
    struct table *t = priced(0);
    uint64_t low;
    int c;

    for (low = 0; low < 5; low++) {
        t->line = t->part = PAST(low);
        expect(REPRICE, "line 2^32 and a few", run(REPRICE, t), 9, 0);
        expect(BILL, "part 2^32 and a few", run(BILL, t), 11, 0);
    }
    t->line = 1;
    for (low = 0; low < 5; low++) {
        t->figure = PAST(low);
        expect(REPRICE, "to 2^32 and a few", run(REPRICE, t), 10, 0);
    }
    t->figure = 500;
    t->part = 3;
    for (c = FIGURES; c < COLUMNS; c++) {
        t->at[c][3] += PAST(0);
        expect(REPRICE, "answers above by 2^32", run(REPRICE, t), 8, 0);
        expect(BILL, "answers above by 2^32", run(BILL, t), 8, 0);
        t->at[c][3] -= PAST(0);
    }
}

/* Faults are taken away one by one: the refusals come in their order. */
static void test_order_of_the_table(void)
{
    struct table *t = worked(3);

    t->n = 1025;
    t->count[SPANS]--;
    t->at[HEADS][2] = t->at[OWN][2] = t->at[STRIKES][2] = t->at[SPANS][5] = t->at[TAILS][2] = UINT64_MAX;
    t->at[HEADS][5] = UINT64_MAX;
    t->count[FIGURES] = 0;
    all_refuse(t, "all faults", 16, 0);
    t->measure = 1;
    all_refuse(t, "but the measure", 1, 0);
    t->n = 5;
    all_refuse(t, "but n", 2, 0);
    t->count[SPANS]++;
    all_refuse(t, "but the lengths", 3, 2);
    t->at[HEADS][2] = 2;
    all_refuse(t, "but the head", 4, 2);
    t->at[OWN][2] = 500;
    all_refuse(t, "but the figure", 21, 2);
    t->at[STRIKES][2] = 0;
    all_refuse(t, "but the mark", 5, 2);
    t->at[SPANS][5] = 2;
    all_refuse(t, "but the span", 6, 4);
    t->at[TAILS][2] = 2;
    all_refuse(t, "but the needed part", 3, 5);
    t->at[HEADS][5] = 4;
    all_refuse(t, "but the last head", 7, 0);
}

static void test_order_of_the_rest(void)
{
    struct table *t = worked(0);

    t->line = 6;
    t->figure = UINT64_MAX;
    t->part = 5;
    t->room_count = 0;
    expect(REPRICE, "unsettled, line 6", run(REPRICE, t), 9, 0);
    expect(BILL, "unsettled, part 5", run(BILL, t), 11, 0);
    t->line = 5;
    t->part = 4;
    expect(REPRICE, "unsettled, line 5", run(REPRICE, t), 10, 0);
    expect(BILL, "unsettled, part 4", run(BILL, t), 8, 0);
    t->figure = 1;
    expect(REPRICE, "unsettled", run(REPRICE, t), 8, 0);
    run(SETTLE, t);
    expect(BILL, "an unmade part and no room", run(BILL, t), 12, 0);
    t->part = 3;
    expect(BILL, "no room", run(BILL, t), 13, 0);
}

const struct test refusal_tests[] = {
    { "refusal_1", test_refusal_1 },
    { "refusal_2", test_refusal_2 },
    { "refusal_3", test_refusal_3 },
    { "refusal_4", test_refusal_4 },
    { "refusal_5", test_refusal_5 },
    { "refusal_6", test_refusal_6 },
    { "refusal_7", test_refusal_7 },
    { "refusal_8", test_refusal_8 },
    { "refusal_9", test_refusal_9 },
    { "refusal_10", test_refusal_10 },
    { "refusals_11_and_12", test_refusals_11_and_12 },
    { "refusal_13", test_refusal_13 },
    { "refusal_16", test_refusal_16 },
    { "refusal_21", test_refusal_21 },
    { "old_mark", test_old_mark },
    { "past_32_bits_tables", test_past_32_bits_tables },
    { "past_32_bits_calls", test_past_32_bits_calls },
    { "order_of_the_table", test_order_of_the_table },
    { "order_of_the_rest", test_order_of_the_rest },
    { NULL, NULL },
};
