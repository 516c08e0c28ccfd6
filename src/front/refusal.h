/* What a refusal means to who typed the table or the command. */
#ifndef FRONT_REFUSAL_H
#define FRONT_REFUSAL_H

#include "say.h"
#include "streams.h"

typedef struct {
    uint64_t number, place, column;
} Refusal;

/* What was asked: the table, the second file or NULL, which of them is refused, and the command's words, which may be empty. For a price letter, WORDS
 * are those of the change that is refused, LETTER is the letter and LETTER_LINE the change's line in it. */
typedef struct {
    const Source *table, *second;
    bool second_refused;
    Slice words;
    const Source *letter;
    uint64_t letter_line;
} Asked;

/* Whether an answer is the line of a refusal. */
bool read_refusal(const Text *output, Refusal *refusal);

/* Says on standard error where and why, shows the line, and names a remedy if there is a simple one. */
void explain(const Refusal *refusal, const Asked *asked);

/* Adds a line, up to 160 bytes of it, with what the eye can't see named in angle brackets. */
void put_visible(Text *shown, Slice line);

/* Ends with TROUBLE because of a line of a text that the front itself reads: what is wrong, the line, and a remedy if the byte at COLUMN has one. */
ENDS void bad_line(const Source *source, uint64_t line, uint64_t column, const char *what);

/* Takes the next line of a text whose lines all end with LF and hold neither CR nor a byte order mark; NUMBER counts them. */
bool next_plain_line(const Source *source, Slice *rest, Slice *line, uint64_t *number);

/* The number of parts in a table's first line, and of lines after it. */
uint64_t parts_of(const Text *table);
uint64_t lines_of(const Text *table);

#endif
