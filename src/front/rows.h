/* Rows of answers: plain or as CSV, with a first line of names and with the parts' names. */
#ifndef FRONT_ROWS_H
#define FRONT_ROWS_H

#include "commands.h"
#include "names.h"

typedef struct {
    bool csv, header;
    /* NULL if parts have no names */
    const Names *names;
} Style;

/* Adds the rows of ANSWER, which is that of a command with rows. */
void put_rows(Text *out, Name command, const Text *answer, const Style *style);

/* Adds fields as a row of CSV (RFC 4180). */
void put_csv(Text *out, const Slice *fields, size_t count);

#endif
