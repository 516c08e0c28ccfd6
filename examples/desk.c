/*
 * A small desk program: reads a table's text, settles the table, appends a line that makes the last part from
 * the two before it, prints that part's bill and writes the text back. It works for any number of parts.
 *
 *     gcc -std=c99 $(pkg-config --cflags tozbierdu) examples/desk.c $(pkg-config --libs tozbierdu)
 *     ./a.out examples/week.parts
 *
 * The status is 0 if all is written, 1 if a call refuses, and 2 if a file can't be read or written.
 */
#define TOZBIERDU_PREFIXED
#include <errno.h>
#include <inttypes.h>
#include <stdio.h>
#include <stdlib.h>
#include <string.h>

#include "tozbierdu.h"

#define COUNT(column) (sizeof(column) / sizeof *(column))

/* Columns that hold any table. */
static uint64_t heads[TOZBIERDU_MOST_LINES], own[TOZBIERDU_MOST_LINES], strikes[TOZBIERDU_MOST_LINES];
static uint64_t spans[2 * TOZBIERDU_MOST_LINES], tails[TOZBIERDU_MOST_TAILS];
static uint64_t figures[TOZBIERDU_MOST_PARTS], depths[TOZBIERDU_MOST_PARTS], roots[TOZBIERDU_MOST_PARTS];
static uint64_t pieces[TOZBIERDU_MOST_PARTS], index_pairs[2 * TOZBIERDU_MOST_PARTS], list[TOZBIERDU_MOST_TAILS];
static uint64_t room[TOZBIERDU_MOST_TAILS];
static uint8_t text[65536];

/* n, the measure, and how many lines and places of tails are in use. */
static uint64_t header[4];

#define WHOLE \
    heads, COUNT(heads), own, COUNT(own), strikes, COUNT(strikes), spans, COUNT(spans), tails, COUNT(tails)
#define IN_USE \
    heads, header[2], own, header[2], strikes, header[2], spans, 2 * header[2], tails, header[3]
#define ANSWERS figures, header[0], depths, header[0], roots, header[0], pieces, header[0]
#define INDEX index_pairs, COUNT(index_pairs), list, COUNT(list)

/* The result of a call that was accepted; a refused one ends the program. */
static uint64_t done(const char *call, uint64_t result)
{
    if (tozbierdu_refused(result)) {
        printf("%s: refused %" PRIu64 " %" PRIu64 "\n", call, tozbierdu_number(result), tozbierdu_place(result));
        exit(1);
    }
    return result;
}

static void fail(const char *name, const char *why)
{
    fprintf(stderr, "%s: %s\n", name, why);
    exit(2);
}

/* The length of the file's text. A file that fills the buffer may be longer than what was read of it. */
static size_t load(const char *name)
{
    FILE *file = fopen(name, "rb");
    size_t length;

    if (file == NULL)
        fail(name, strerror(errno));
    length = fread(text, 1, sizeof text, file);
    if (ferror(file))
        fail(name, strerror(errno));
    fclose(file);
    if (length == sizeof text)
        fail(name, "longer than 65535 bytes");
    return length;
}

/* Appends a line that makes a part at 50 from up to two parts before it. */
static void append(uint64_t part)
{
    uint64_t needed[2] = { part - 2, part - 1 }, counts[2] = { 0 };
    size_t first = part < 2 ? 2 - part : 0;

    done("index", tozbierdu_index_table(header[0], IN_USE, INDEX));
    done("append", tozbierdu_append(header[1], header[0], WHOLE, header[2], header[3], ANSWERS, INDEX, part, 50,
                                    TOZBIERDU_STANDS, needed + first, COUNT(needed) - first, counts, COUNT(counts)));
    header[2] = counts[0];
    header[3] = counts[1];
}

static void print_bill(uint64_t part)
{
    uint64_t length, i;

    if (depths[part] == 0) {
        printf("part %" PRIu64 " is unmade\n", part);
        return;
    }
    length = done("bill", tozbierdu_bill(header[1], header[0], IN_USE, ANSWERS, part, room, COUNT(room)));
    printf("part %" PRIu64 " at %" PRIu64 ", bill:", part, figures[part]);
    for (i = 0; i < length; i++)
        printf(" %" PRIu64, room[i]);
    printf("\n");
}

int main(int count, char **given)
{
    uint64_t n, length;

    if (count != 2)
        fail("usage", "desk TABLE");
    done("read", tozbierdu_read_table(text, load(given[1]), WHOLE, header, COUNT(header)));
    n = header[0];
    done("settle", tozbierdu_settle(header[1], n, IN_USE, ANSWERS));
    if (n > 1)
        printf("part %" PRIu64 " at %" PRIu64 "\n", n - 2, figures[n - 2]);
    if (n > 0) {
        append(n - 1);
        print_bill(n - 1);
    }
    length = done("write", tozbierdu_write_table(header[1], n, IN_USE, text, sizeof text));
    if (fwrite(text, 1, length, stdout) != length || fflush(stdout) != 0 || ferror(stdout))
        fail("standard output", strerror(errno));
    return 0;
}
