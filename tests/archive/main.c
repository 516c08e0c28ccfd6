/*
 * The calls of libtozbierdu.a from C, by their declarations: each on a small table, what it returns
 * and writes; the measure's number before all; and how much stack each takes. Each test runs in a
 * process of its own; the last line is 'N passed, M failed'. Arguments: [test].
 */
#include <pthread.h>
#include <stdio.h>
#include <stdlib.h>
#include <string.h>
#include <sys/mman.h>
#include <sys/wait.h>
#include <unistd.h>

#define TOZBIERDU_PREFIXED
#include "tozbierdu.h"

enum { LINES = TOZBIERDU_MOST_LINES, TAILS = TOZBIERDU_MOST_TAILS, PARTS = TOZBIERDU_MOST_PARTS };

/* A table in columns that hold any, its answers, its index, a shelf and a record of two events. */
static uint64_t n, lines, listed, measure;
static uint64_t heads[LINES], own[LINES], strikes[LINES], spans[2 * LINES], tails[TAILS];
static uint64_t weights[PARTS], depths[PARTS], edges[PARTS], pieces[PARTS];
static uint64_t index_pairs[2 * PARTS], list[TAILS], room[20000], four[4], two[2], stock[PARTS], outcomes[2];
static uint8_t text[1 << 20], bytes[8 * LINES];
static const uint64_t ordered_parts[] = { 0, 1 }, received[] = { 2, 0 };

#define TABLE heads, lines, own, lines, strikes, lines, spans, 2 * lines, tails, listed
#define ANSWERS weights, n, depths, n, edges, n, pieces, n

static int failures;

static void check(int holds, const char *what)
{
    if (!holds && failures++ == 0)
        printf("  %s\n", what);
}

static void gives(const char *call, uint64_t got, uint64_t number, uint64_t low)
{
    if (got != (number << 32 | low) && failures++ == 0)
        printf("  %s gave %llu %llu, and not %llu %llu\n", call, (unsigned long long)tozbierdu_number(got),
               (unsigned long long)tozbierdu_place(got), (unsigned long long)number, (unsigned long long)low);
}

static void add(uint64_t head, uint64_t figure, size_t needs, const uint64_t *parts)
{
    heads[lines] = head;
    own[lines] = figure;
    strikes[lines] = TOZBIERDU_STANDS;
    spans[2 * lines] = listed;
    spans[2 * lines + 1] = needs;
    for (lines++; needs > 0; needs--)
        tails[listed++] = *parts++;
}

static uint64_t settle_it(void) { return tozbierdu_settle(measure, n, TABLE, ANSWERS); }

/* Part 1 is made from two of part 0, which is bought, and in another way alone. */
static void small(void)
{
    static const uint64_t both[] = { 0, 0 };

    n = 2;
    add(0, 5, 0, NULL);
    add(1, 1, 2, both);
    add(1, 20, 0, NULL);
    gives("settle", settle_it(), 0, 0);
}

/* As deep as a table can be, with the deep part listed last. */
static void deepest(void)
{
    uint64_t parts[TOZBIERDU_LONGEST_TAIL] = { 0 }, part;

    n = PARTS;
    add(0, 1, 0, NULL);
    for (part = 1; part < n; part++) {
        parts[TOZBIERDU_LONGEST_TAIL - 1] = part - 1;
        add(part, 0, TOZBIERDU_LONGEST_TAIL, parts);
    }
    gives("settle", settle_it(), 0, 0);
    gives("index_table", tozbierdu_index_table(n, TABLE, index_pairs, 2 * PARTS, list, TAILS), 0, 2045);
}

/* Each call as `small` or `deepest` left the columns; those that come last have changed them. */
static uint64_t check_table(void) { return tozbierdu_check_table(n, TABLE); }
static uint64_t check_order(void) { return tozbierdu_check_order(n, TABLE); }
static uint64_t settle_ordered(void) { return tozbierdu_settle_ordered(measure, n, TABLE, ANSWERS); }
static uint64_t check_answers(void) { return tozbierdu_check_answers(measure, n, TABLE, ANSWERS); }
static uint64_t entry(void) { return tozbierdu_entry(ANSWERS, 1, four, 4); }
static uint64_t reprice(void) { return tozbierdu_reprice(measure, n, TABLE, ANSWERS, 0, 6); }
static uint64_t strike(void) { return tozbierdu_strike(measure, n, TABLE, ANSWERS, 1); }
static uint64_t restore(void) { return tozbierdu_restore(measure, n, TABLE, ANSWERS, 1); }
static uint64_t bill(void) { return tozbierdu_bill(measure, n, TABLE, ANSWERS, n - 1, room, 20000); }
static uint64_t summarize(void) { return tozbierdu_summarize(own, 3, four, 4); }
static uint64_t shuffle(void) { return tozbierdu_shuffle(own, lines, bytes, 8 * lines); }
static uint64_t unshuffle(void) { return tozbierdu_unshuffle(bytes, 8 * lines, room, lines); }
static uint64_t text_column(void) { return tozbierdu_text_column(text, 12); }
static uint64_t write_table(void) { return tozbierdu_write_table(measure, n, TABLE, text, sizeof text); }

static uint64_t read_table(void)
{
    return tozbierdu_read_table(text, strlen((char *)text), heads, LINES, own, LINES, strikes, LINES, spans, 2 * LINES,
                                tails, TAILS, four, 4);
}

static uint64_t replay(void)
{
    return tozbierdu_replay(measure, n, TABLE, ANSWERS, ordered_parts, 2, received, 2, stock, n, outcomes, 2);
}

static uint64_t index_table(void)
{
    return tozbierdu_index_table(n, TABLE, index_pairs, 2 * PARTS, list, TAILS);
}

static uint64_t append(void)
{
    uint64_t result = tozbierdu_append(measure, n, heads, LINES, own, LINES, strikes, LINES, spans, 2 * LINES, tails, TAILS,
                                       lines, listed, ANSWERS, index_pairs, 2 * PARTS, list, TAILS, 1, 3,
                                       TOZBIERDU_STANDS, ordered_parts, 1, two, 2);

    if (!tozbierdu_refused(result)) {
        lines = two[0];
        listed = two[1];
    }
    return result;
}

static int is(const uint64_t *places, uint64_t a, uint64_t b, uint64_t c, uint64_t d)
{
    return places[0] == a && places[1] == b && places[2] == c && places[3] == d;
}

static void test_tables(void)
{
    small();
    gives("check_table", check_table(), 0, 0);
    gives("check_order", check_order(), 0, 0);
    gives("check_answers", check_answers(), 0, TOZBIERDU_YES);
    gives("entry", entry(), 0, TOZBIERDU_STATE_MADE);
    check(is(four, 11, 2, 1, 2), "the entry of part 1");
    gives("bill", bill(), 0, 3);
    check(is(room, 1, 0, 0, 0), "the bill of part 1");
    weights[0] = 6;
    gives("check_answers", check_answers(), 0, TOZBIERDU_NO);
    gives("settle_ordered", settle_ordered(), 0, 0);
    check(is(weights, 5, 11, 0, 0), "the figures");
    heads[1] = 2;
    gives("check_order", check_order(), 3, 1);
}

static void test_changes(void)
{
    small();
    gives("reprice", reprice(), 0, 0);
    check(own[0] == 6 && weights[1] == 13, "part 1 after repricing");
    gives("restore", restore(), 20, 0);
    gives("strike", strike(), 0, 0);
    check(strikes[1] == TOZBIERDU_STRIKE && weights[1] == 20, "part 1 after striking");
    gives("strike", strike(), 9, 0);
    gives("restore", restore(), 0, 0);
    check(strikes[1] == TOZBIERDU_STANDS && weights[1] == 13, "part 1 after restoring");
}

static void test_appending(void)
{
    small();
    gives("append", append(), 19, 0);
    gives("index_table", index_table(), 0, 1);
    check(is(index_pairs, 0, 1, 1, 0) && list[0] == 1, "the index");
    gives("append", append(), 0, 0);
    check(lines == 4 && listed == 3, "the new counts");
    check(heads[3] == 1 && own[3] == 3 && tails[2] == 0 && weights[1] == 8 && list[1] == 3, "the longer table");
}

static void test_texts(void)
{
    static const char wrong[] = "parts 2\n0  5\n", right[] = "parts 2 cost\n0 5\n1 1 0 0\n1 20\n";

    small();
    gives("write_table", write_table(), 0, strlen(right));
    check(strcmp((char *)text, right) == 0, "the text");
    lines = listed = 0;
    gives("read_table", read_table(), 0, 0);
    check(is(four, 2, TOZBIERDU_COST, 3, 2) && is(heads, 0, 1, 1, 0) && spans[3] == 2, "the table that was read");
    memcpy(text, wrong, sizeof wrong);
    gives("read_table", read_table(), 14, 2);
    gives("text_column", text_column(), 0, 3);
}

static void test_figures(void)
{
    small();
    gives("summarize", summarize(), 0, 0);
    check(is(four, 26, 3, 602, 9), "mean and variance");
    gives("shuffle", shuffle(), 0, 0);
    check(bytes[0] == 5 && bytes[1] == 1 && bytes[2] == 20 && bytes[3] == 0, "the lowest bytes");
    gives("unshuffle", unshuffle(), 0, 0);
    check(memcmp(room, own, 3 * sizeof *own) == 0, "the column laid back");
    gives("replay", replay(), 0, 0);
    check(outcomes[0] == TOZBIERDU_EVENT_RECEIVED && outcomes[1] == TOZBIERDU_EVENT_BUILT && stock[0] == 0, "the record");
    gives("replay", replay(), 0, 0);
    stock[1] = 1;
    gives("replay", replay(), 0, 0);
    check(outcomes[1] == TOZBIERDU_EVENT_FROM_SHELF, "an order from the shelf");
}

struct called {
    const char *name;
    uint64_t (*call)(void);
    size_t most; /* KiB of stack that the header allows */
    int measured; /* whether 16 comes first */
};

static const struct called calls[] = {
    { "check_table", check_table, 32, 0 }, { "check_order", check_order, 32, 0 },
    { "settle", settle_it, 96, 1 }, { "settle_ordered", settle_ordered, 32, 1 },
    { "check_answers", check_answers, 96, 1 }, { "entry", entry, 32, 0 },
    { "reprice", reprice, 96, 1 }, { "strike", strike, 96, 1 }, { "restore", restore, 96, 1 },
    { "index_table", index_table, 32, 0 }, { "append", append, 256, 1 }, { "bill", bill, 256, 1 },
    { "read_table", read_table, 32, 0 }, { "text_column", text_column, 32, 0 }, { "write_table", write_table, 32, 1 },
    { "summarize", summarize, 32, 0 }, { "replay", replay, 96, 1 },
    { "shuffle", shuffle, 32, 0 }, { "unshuffle", unshuffle, 32, 0 },
};

static void test_measures(void)
{
    size_t i;

    small();
    measure = 3;
    n = 5000;
    for (i = 0; i < sizeof calls / sizeof *calls; i++)
        if (calls[i].measured)
            gives(calls[i].name, calls[i].call(), 16, 0);
}

static void *on_stack(void *given)
{
    const struct called *c = given;

    check(!tozbierdu_refused(c->call()), c->name);
    return NULL;
}

/* How many bytes of a thread's stack a call on the deepest table has written. */
static size_t stack_of(const struct called *c)
{
    const size_t size = (size_t)16 << 20;
    unsigned char *stack = mmap(NULL, size, PROT_READ | PROT_WRITE, MAP_PRIVATE | MAP_ANONYMOUS, -1, 0);
    pthread_attr_t attributes;
    pthread_t thread;
    size_t low = 0;

    memset(stack, 0xA5, size);
    pthread_attr_init(&attributes);
    pthread_attr_setstack(&attributes, stack, size);
    check(pthread_create(&thread, &attributes, on_stack, (void *)(size_t)c) == 0, "a thread");
    pthread_join(thread, NULL);
    while (low < size && stack[low] == 0xA5)
        low++;
    munmap(stack, size);
    return size - low;
}

static void test_stack(void)
{
    size_t i, taken;

    deepest();
    check(!tozbierdu_refused(write_table()), "the text that is read");
    for (i = 0; i < sizeof calls / sizeof *calls; i++) {
        check(!tozbierdu_refused(settle_it()) && !tozbierdu_refused(index_table()), "the table as it then is");
        taken = stack_of(&calls[i]);
        if (getenv("STACK") != NULL)
            printf("stack: %s %zu bytes\n", calls[i].name, taken);
        check(taken < calls[i].most << 10, calls[i].name);
    }
}

static const struct {
    const char *name;
    void (*run)(void);
} tests[] = {
    { "tables", test_tables }, { "changes", test_changes }, { "appending", test_appending },
    { "texts", test_texts }, { "figures", test_figures }, { "measures", test_measures }, { "stack", test_stack },
};

int main(int count, char **given)
{
    unsigned passed = 0, failed = 0;
    size_t i;

    for (i = 0; i < sizeof tests / sizeof *tests; i++) {
        int status = -1;
        pid_t child;

        if (count > 1 && strcmp(given[1], tests[i].name) != 0)
            continue;
        fflush(stdout);
        child = fork();
        if (child == 0) {
            tests[i].run();
            fflush(stdout);
            _exit(failures > 0);
        }
        if (child > 0 && waitpid(child, &status, 0) == child && WIFEXITED(status) && WEXITSTATUS(status) == 0) {
            passed++;
        } else {
            printf("failed %s\n", tests[i].name);
            failed++;
        }
    }
    printf("%u passed, %u failed\n", passed, failed);
    return failed > 0;
}
