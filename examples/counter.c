/*
 * A small counter program: prices a table of five parts, reprices a line, strikes one and brings it
 * back, prints bills, and explains what is turned away.
 *
 *     gcc -std=c99 -Iinclude examples/counter.c target/staticlib/libcounter.a
 */
#include <inttypes.h>
#include <stdio.h>

#include "tozbierdu.h"

#define COUNT(column) (sizeof(column) / sizeof *(column))

enum { PARTS = 5 };

/* line:                        0     1    2     3  4   5 */
static uint64_t heads[] =   {   0,    1,   2,    2, 3,  4 };
static uint64_t own[] =     { 1200, 300, 500, 2100, 0, 10 };
static uint64_t strikes[] = {   0,    0,   0,    0, 0,  0 };

/* offset and length of each line's needed parts, and these parts: 2 of line 2, 3 of line 4, 1 of
   line 5 */
static uint64_t spans[] = { 0, 0, 0, 0, 0, 2, 2, 0, 2, 3, 5, 1 };
static uint64_t tails[] = { 0, 1, 2, 1, 1, 4 };

static uint64_t figures[PARTS], depths[PARTS], lines[PARTS], pieces[PARTS];

#define TABLE \
    heads, COUNT(heads), own, COUNT(own), strikes, COUNT(strikes), spans, COUNT(spans), tails, \
        COUNT(tails)
#define ANSWERS figures, PARTS, depths, PARTS, lines, PARTS, pieces, PARTS

static const char *state(size_t part)
{
    if (depths[part] == 0)
        return "unmade";
    return figures[part] == TOZBIERDU_OVER ? "over" : "made";
}

static void list(void)
{
    size_t part;

    printf("part state figure depth line pieces\n");
    for (part = 0; part < PARTS; part++)
        printf("%zu %s %" PRIu64 " %" PRIu64 " %" PRIu64 " %" PRIu64 "\n", part, state(part),
               figures[part], depths[part], lines[part], pieces[part]);
}

static const char *reason(uint64_t number)
{
    switch (number) {
    case TOZBIERDU_REFUSED_PARTS: return "more than 1024 parts";
    case TOZBIERDU_REFUSED_LENGTHS: return "columns disagree in length or are too long";
    case TOZBIERDU_REFUSED_HEAD: return "the line yields a part that does not exist";
    case TOZBIERDU_REFUSED_OWN: return "the line's own figure is too great";
    case TOZBIERDU_REFUSED_SPAN: return "the line's span is out of place";
    case TOZBIERDU_REFUSED_TAIL: return "the line needs a part that does not exist";
    case TOZBIERDU_REFUSED_ANSWER_LENGTHS: return "an answer column is not as long as the parts are many";
    case TOZBIERDU_REFUSED_ANSWERS: return "the answers are not this table's";
    case TOZBIERDU_REFUSED_LINE: return "no such line, or it is struck";
    case TOZBIERDU_REFUSED_FIGURE: return "the new figure is too great";
    case TOZBIERDU_REFUSED_PART: return "no such part";
    case TOZBIERDU_REFUSED_UNMADE: return "the part cannot be made";
    case TOZBIERDU_REFUSED_ROOM: return "the bill is longer than the room";
    case TOZBIERDU_REFUSED_MEASURE: return "the measure is neither cost, days nor grade";
    case TOZBIERDU_REFUSED_STRIKE_MARK: return "the line's strike mark is neither 0 nor 1";
    default: return "unknown";
    }
}

/* Whether the call was accepted; if not, why. */
static int accepted(const char *call, uint64_t result)
{
    if (tozbierdu_refused(result))
        printf("%s: refused %" PRIu64 " %" PRIu64 ": %s\n", call, tozbierdu_number(result),
               tozbierdu_place(result), reason(tozbierdu_number(result)));
    return !tozbierdu_refused(result);
}

static void print_bill(uint64_t part)
{
    uint64_t room[16] = { 0 }, length, i;

    length = bill(TOZBIERDU_COST, PARTS, TABLE, ANSWERS, part, room, COUNT(room));
    if (!accepted("bill", length))
        return;
    printf("bill of part %" PRIu64 ":", part);
    for (i = 0; i < length; i++)
        printf(" %" PRIu64, room[i]);
    printf("\n");
}

int main(void)
{
    if (!accepted("settle", settle(TOZBIERDU_COST, PARTS, TABLE, ANSWERS)))
        return 1;
    list();
    print_bill(3);

    if (!accepted("reprice", reprice(TOZBIERDU_COST, PARTS, TABLE, ANSWERS, 1, 500)))
        return 1;
    printf("line 1 now at %" PRIu64 "\n", own[1]);
    list();
    print_bill(3);

    /* from C a mark is set in its column, and the table settled */
    strikes[3] = TOZBIERDU_STRIKE;
    accepted("settle", settle(TOZBIERDU_COST, PARTS, TABLE, ANSWERS));
    printf("line 3 struck\n");
    print_bill(3);
    strikes[3] = TOZBIERDU_STANDS;
    accepted("settle", settle(TOZBIERDU_COST, PARTS, TABLE, ANSWERS));
    printf("line 3 back at %" PRIu64 "\n", own[3]);
    print_bill(3);

    print_bill(4);
    strikes[2] = 2;
    accepted("settle", settle(TOZBIERDU_COST, PARTS, TABLE, ANSWERS));
    heads[2] = PARTS;
    accepted("settle", settle(TOZBIERDU_COST, PARTS, TABLE, ANSWERS));
    return 0;
}
