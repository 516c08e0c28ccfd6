#include "letter.h"

#include <stdio.h>
#include <stdlib.h>

#include "refusal.h"
#include "say.h"

enum { WIDTH = 24 };

/* A change in the digits that `parts` takes. */
typedef struct {
    char line[WIDTH], figure[WIDTH];
    uint64_t number;
} Change;

static void take_field(const Source *letter, uint64_t at, Slice field, char *digits, uint64_t *number)
{
    char what[160];

    if (!whole_number(field, number)) {
        snprintf(what, sizeof what, "%.*s is not a whole number", field.length > 40 ? 40 : (int)field.length, field.bytes);
        bad_line(letter, at, 1, field.length == 0 ? "a change is a line number, one space and a figure" : what);
    }
    snprintf(digits, WIDTH, "%llu", (unsigned long long)*number);
}

static void take_change(const Source *letter, uint64_t at, Slice line, Change *change)
{
    Slice fields[3];
    uint64_t figure;

    if (split(line, fields, 3) != 2)
        bad_line(letter, at, 1, "a change is a line number, one space and a figure");
    take_field(letter, at, fields[0], change->line, &change->number);
    take_field(letter, at, fields[1], change->figure, &figure);
}

/* Which of two figures a line should get nobody knows. GIVEN has for each table line the letter's line that changes it. */
static void check_once(const Source *letter, uint64_t at, const Change *change, uint64_t *given, uint64_t lines)
{
    char what[160];

    if (change->number >= lines)
        return;
    if (given[change->number] != 0) {
        snprintf(what, sizeof what, "line %s has a new figure already, in line %llu of the letter", change->line,
                 (unsigned long long)given[change->number]);
        bad_line(letter, at, 1, what);
    }
    given[change->number] = at;
}

/* Reads the letter whole: a mistake in its last line is found before anything is carried out. */
static size_t read_letter(const Source *letter, const Source *table, Change **changes)
{
    Slice rest = slice_of(&letter->text), line;
    uint64_t at = 0, lines = lines_of(&table->text), *given = zeroed((size_t)lines, sizeof *given);

    if (letter->text.length == 0)
        fail("%s is empty: a letter has a line LINE FIGURE for each change", letter->name);
    if (letter->text.length >= MOST_TEXT)
        fail("%s is longer than 65,535 bytes: make two letters of it", letter->name);
    *changes = zeroed((size_t)lines_of(&letter->text) + 1, sizeof **changes);
    while (next_plain_line(letter, &rest, &line, &at)) {
        take_change(letter, at, line, &(*changes)[at - 1]);
        check_once(letter, at, &(*changes)[at - 1], given, lines);
    }
    free(given);
    return (size_t)at;
}

void carry_out(const Source *letter, const Source *table, Answer *answer, uint64_t *line)
{
    Change *changes;
    size_t count = read_letter(letter, table, &changes);
    Text text = {0};
    Refusal refusal;
    bool refused = false;

    for (size_t at = 0; at < count && !refused; at++) {
        const char *const words[] = {"reprice", changes[at].line, changes[at].figure, NULL};

        ask("parts", words, at == 0 ? &table->text : &text, NULL, answer);
        refused = read_refusal(&answer->output, &refusal);
        *line = at + 1;
        text_free(&text);
        text = answer->output;
    }
    free(changes);
}
