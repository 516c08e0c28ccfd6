/* Bytes in memory: texts that grow, and pieces of them. */
#ifndef FRONT_TEXT_H
#define FRONT_TEXT_H

#include <stdbool.h>
#include <stddef.h>
#include <stdint.h>

typedef struct {
    char *bytes;
    size_t length, room;
} Text;

/* A piece of a text, which it does not own. */
typedef struct {
    const char *bytes;
    size_t length;
} Slice;

/* An array of COUNT elements of SIZE bytes, all zero. */
void *zeroed(size_t count, size_t size);

void text_add(Text *text, const char *bytes, size_t length);
void text_put(Text *text, const char *string);
void text_slice(Text *text, Slice slice);
void text_byte(Text *text, char byte);
void text_number(Text *text, uint64_t number);
void text_free(Text *text);

Slice slice_of(const Text *text);
Slice slice_string(const char *string);
bool slice_is(Slice slice, const char *string);

/* Takes the first line off REST, without its LF; false if REST is empty. */
bool next_line(Slice *rest, Slice *line);

/* Line NUMBER of a text, counted from 1, with its LF; empty if there is none. */
Slice line_of(const Text *text, uint64_t number);

/* Splits a line at its spaces into at most MOST fields; the last one holds the rest. */
size_t split(Slice line, Slice *fields, size_t most);

/* Whether a slice is a number as tables have it, of at most 18 digits. */
bool whole_number(Slice slice, uint64_t *number);

#endif
