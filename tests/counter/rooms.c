/* Columns of no place, rooms longer than what counts, and the stack that the calls need. */
#include <pthread.h>
#include <stdio.h>
#include <stdlib.h>
#include <string.h>
#include <sys/mman.h>

#include "table.h"

/* Columns of no place, whose pointers are null. */
static void test_no_places(void)
{
#define NONE NULL, 0
    static const uint64_t zeros[3];
    uint64_t figures[3] = { 7, 7, 7 }, depths[3] = { 7, 7, 7 }, lines[3] = { 7, 7, 7 }, pieces[3] = { 7, 7, 7 },
        result;

    result = settle(0, 0, NONE, NONE, NONE, NONE, NONE, NONE, NONE, NONE, NONE);
    expect(SETTLE, "nothing", result, 0, 0);
    result = reprice(0, 0, NONE, NONE, NONE, NONE, NONE, NONE, NONE, NONE, NONE, 0, 0);
    expect(REPRICE, "nothing", result, 9, 0);
    result = bill(0, 0, NONE, NONE, NONE, NONE, NONE, NONE, NONE, NONE, NONE, 0, NONE);
    expect(BILL, "nothing", result, 11, 0);
    result = settle(3, 0, NONE, NONE, NONE, NONE, NONE, NONE, NONE, NONE, NONE);
    expect(SETTLE, "nothing, measure 3", result, 16, 0);
    result = settle(0, 0, zeros, 1, NONE, NONE, NONE, NONE, NONE, NONE, NONE, NONE);
    expect(SETTLE, "a head and no figure", result, 2, 0);
    result = settle(0, 0, zeros, 1, zeros, 1, NONE, zeros, 2, NONE, NONE, NONE, NONE, NONE);
    expect(SETTLE, "a line and no mark", result, 2, 0);
    result = settle(0, 3, NONE, NONE, NONE, NONE, NONE, NONE, NONE, NONE, NONE);
    expect(SETTLE, "no answers", result, 7, 0);
    result = settle(1, 3, NONE, NONE, NONE, NONE, NONE, figures, 3, depths, 3, lines, 3, pieces, 3);
    expect(SETTLE, "no lines", result, 0, 0);
    check(memcmp(figures, zeros, sizeof zeros) == 0, "figures without lines");
    check(memcmp(depths, zeros, sizeof zeros) == 0, "depths without lines");
    check(memcmp(lines, zeros, sizeof zeros) == 0, "lines without lines");
    check(memcmp(pieces, zeros, sizeof zeros) == 0, "piece counts without lines");
    result = bill(1, 3, NONE, NONE, NONE, NONE, NONE, figures, 3, depths, 3, lines, 3, pieces, 3, 2, NONE);
    expect(BILL, "no lines", result, 12, 0);
}

/* A room said to be longer than it is: refused, nothing is written; accepted, the bill alone. */
static void test_long_rooms(void)
{
    static const uint64_t listed[] = { 4, 2, 0, 1, 1, 1 };
    static const size_t counts[] = { (size_t)TOZBIERDU_MOST_ROOM, (size_t)TOZBIERDU_MOST_ROOM + 1,
        ((size_t)1 << 32) + 5, (size_t)1 << 33, (size_t)1 << 61, SIZE_MAX };
    struct table *t = priced(0);
    size_t i;

    for (i = 0; i < sizeof counts / sizeof *counts; i++) {
        t->room_count = counts[i];
        bill_is(t, 3, 6, listed);
        t->part = 4;
        expect(BILL, "an unmade part", run(BILL, t), 12, 0);
        t->part = 5;
        expect(BILL, "part 5", run(BILL, t), 11, 0);
        t->at[DEPTHS][0]++;
        t->part = 3;
        expect(BILL, "wrong answers", run(BILL, t), 8, 0);
        t->at[DEPTHS][0]--;
        t->measure = 3;
        expect(BILL, "measure 3", run(BILL, t), 16, 0);
        t->measure = 0;
    }
}

/* The same in room that is there; where so much address space is not to be had, the test is skipped and not counted. */
static void test_mapped_room(void)
{
    const size_t count = ((size_t)1 << 32) + 5;
    uint64_t *room = mmap(NULL, count * sizeof *room, PROT_READ | PROT_WRITE,
                          MAP_PRIVATE | MAP_ANONYMOUS | MAP_NORESERVE, -1, 0);
    struct table *t = priced(0);
    uint64_t result, i;

    if (room == MAP_FAILED) {
        skipped = 1;
        return;
    }
    for (i = count - 6; i < count; i++)
        room[i] = guard(i);
    result = bill(0, 5, t->at[HEADS], 6, t->at[OWN], 6, t->at[STRIKES], 6, t->at[SPANS], 12,
                  t->at[TAILS], 6, t->at[FIGURES], 5, t->at[DEPTHS], 5, t->at[LINES], 5,
                  t->at[PIECES], 5, 3, room, count);
    expect(BILL, "a mapped room", result, 0, 6);
    check(room[0] == 4 && room[1] == 2 && room[5] == 1, "the bill");
    for (i = 6; i < 1024; i++)
        check(room[i] == 0, "a write behind the bill");
    for (i = count - 6; i < count; i++)
        check(room[i] == guard(i), "a write at the room's end");
}

/* A part whose bill has this many lines: each part needs the one before twice, or once for a bill of
   2, and part 0 once more where a line is left over. */
static struct table *sized(uint64_t length)
{
    uint64_t needs[64], parts[3] = { 0 }, n;
    struct table *t;

    for (n = 1; length > 1; n++) {
        needs[n] = length == 2 ? 1 : 3 - length % 2;
        length = length == 2 ? 1 : (length - needs[n] + 1) / 2;
    }
    t = blank(n);
    add(t, 0, 1, 0, NULL);
    for (t->part = 1; t->part < n; t->part++) {
        parts[0] = parts[1] = t->part - 1;
        add(t, t->part, 0, needs[n - t->part], parts);
    }
    t->part = n - 1;
    expect(SETTLE, "a long bill", run(SETTLE, t), 0, 0);
    return t;
}

/* Every length is made just so. */
static void test_sized(void)
{
    uint64_t length;

    for (length = 1; length <= 600; length++) {
        struct table *t = sized(length);
        expect(BILL, "a bill made to its length", run(BILL, t), 0, length);
        drop(t);
    }
}

/* Bills whose length is low once it is cut to 32 bits: the cut one would fit. */
static void test_past_32_bits_lines(void)
{
    uint64_t low;

    for (low = 0; low < 9; low++) {
        struct table *t = sized((UINT64_C(1) << 32) + low);
        for (t->room_count = 0; t->room_count < 12; t->room_count++)
            expect(BILL, "2^32 lines and a few", run(BILL, t), 13, 0);
        t->room_count = ROOM;
        expect(BILL, "2^32 lines and a few", run(BILL, t), 13, 0);
        drop(t);
    }
}

/* A bill longer than what counts, in room that is said to hold it. */
static void test_uncounted_room(void)
{
    struct table *t = sized((UINT64_C(1) << 32) + 1);

    t->room_count = ((size_t)1 << 32) + 5;
    expect(BILL, "2^32 + 1 lines in 2^32 + 5 places", run(BILL, t), 13, 0);
}

struct stacked {
    enum call call;
    struct table *table;
    uint64_t *block[COLUMNS];
};

static void *on_stack(void *given)
{
    struct stacked *s = given;

    expect(s->call, "on a stack of its own", invoke(s->call, s->table, s->block, s->table->room), 0,
           s->call == BILL ? 16369 : 0);
    return NULL;
}

/* How many bytes of a thread's stack a call on the deepest table has written. */
static size_t stack_of(enum call call)
{
    const size_t size = (size_t)16 << 20;
    unsigned char *stack = mmap(NULL, size, PROT_READ | PROT_WRITE, MAP_PRIVATE | MAP_ANONYMOUS, -1, 0);
    struct stacked s = { call, deepest(), { NULL } };
    pthread_attr_t attributes;
    pthread_t thread;
    size_t low = 0;
    int c;

    run(SETTLE, s.table);
    for (c = 0; c < COLUMNS; c++)
        s.block[c] = lend(s.table->at[c], s.table->count[c]);
    memset(stack, 0xA5, size);
    pthread_attr_init(&attributes);
    pthread_attr_setstack(&attributes, stack, size);
    check(pthread_create(&thread, &attributes, on_stack, &s) == 0, "a thread");
    pthread_join(thread, NULL);
    while (low < size && stack[low] == 0xA5)
        low++;
    return size - low;
}

static void test_stack(void)
{
    size_t settling = stack_of(SETTLE), repricing = stack_of(REPRICE), billing = stack_of(BILL);

    if (getenv("STACK") != NULL)
        printf("stack: settle %zu, reprice %zu, bill %zu bytes\n", settling, repricing, billing);
    check(settling < (size_t)96 << 10, "settle takes under 96 KiB");
    check(repricing < (size_t)96 << 10, "reprice takes under 96 KiB");
    check(billing < (size_t)256 << 10, "bill takes under 256 KiB");
}

const struct test room_tests[] = {
    { "no_places", test_no_places },
    { "long_rooms", test_long_rooms },
    { "mapped_room", test_mapped_room },
    { "sized", test_sized },
    { "past_32_bits_lines", test_past_32_bits_lines },
    { "uncounted_room", test_uncounted_room },
    { "stack", test_stack },
    { NULL, NULL },
};
