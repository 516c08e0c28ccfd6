#include "refusal.h"

#include <stdio.h>
#include <stdlib.h>
#include <string.h>

enum { SHOWN = 160 };

static const struct {
    uint64_t number;
    const char *meaning;
} meanings[] = {
#include "refusals.h"
};

bool read_refusal(const Text *output, Refusal *refusal)
{
    Slice rest = slice_of(output), line = {NULL, 0}, fields[4];
    size_t count;

    *refusal = (Refusal){0, 0, 0};
    if (!next_line(&rest, &line))
        return false;
    count = split(line, fields, 4);
    if (!slice_is(fields[0], "refused"))
        return false;
    if (count < 3 || !whole_number(fields[1], &refusal->number) || !whole_number(fields[2], &refusal->place) ||
        (count == 4 && !whole_number(fields[3], &refusal->column)))
        fail("cannot understand the answer of the program: %.*s", (int)line.length, line.bytes);
    return true;
}

uint64_t parts_of(const Text *table)
{
    Slice rest = slice_of(table), line, fields[3];
    uint64_t parts = 0;

    if (next_line(&rest, &line) && split(line, fields, 3) >= 2)
        whole_number(fields[1], &parts);
    return parts;
}

uint64_t lines_of(const Text *table)
{
    Slice rest = slice_of(table), line;
    uint64_t lines = 0;

    while (next_line(&rest, &line))
        lines++;
    return lines == 0 ? 0 : lines - 1;
}

static void put_byte(Text *shown, unsigned char byte)
{
    char hex[8];

    if (byte == '\t') {
        text_put(shown, "<tab>");
    } else if (byte == '\n') {
        text_put(shown, "<LF>");
    } else if (byte == '\r') {
        text_put(shown, "<CR>");
    } else if (byte < 32 || byte > 126) {
        snprintf(hex, sizeof hex, "<%02X>", byte);
        text_put(shown, hex);
    } else {
        text_byte(shown, (char)byte);
    }
}

void put_visible(Text *shown, Slice line)
{
    size_t at = 0;

    while (at < line.length && at < SHOWN) {
        if (line.length - at >= 3 && memcmp(line.bytes + at, "\xEF\xBB\xBF", 3) == 0) {
            text_put(shown, "<byte order mark>");
            at += 3;
        } else {
            put_byte(shown, (unsigned char)line.bytes[at++]);
        }
    }
    if (line.length > SHOWN)
        text_put(shown, "...");
    else if (line.length == 0 || line.bytes[line.length - 1] != '\n')
        text_put(shown, "<end>");
}

static const char *meaning_of(uint64_t number)
{
    for (size_t at = 0; at < sizeof meanings / sizeof meanings[0]; at++)
        if (meanings[at].number == number)
            return meanings[at].meaning;
    return "this refusal is not expected here; please report it with the table and the command";
}

/* Whether an opening count of a record is too great: then the place of 26 is its part. */
static bool opening_too_great(const Text *record, uint64_t part)
{
    Slice rest = slice_of(record), line, fields[1026];
    uint64_t count = 0;
    size_t found;

    if (!next_line(&rest, &line))
        return false;
    found = split(line, fields, sizeof fields / sizeof fields[0]);
    return part + 1 < found && whole_number(fields[part + 1], &count) && count > 1000000;
}

/* The text line that a refusal is about, or 0. */
static uint64_t line_in_question(const Refusal *refusal, const Source *blamed)
{
    switch (refusal->number) {
    case 7:
        return 1;
    case 14:
        return refusal->place;
    case 23:
        return refusal->place + 1;
    case 24:
    case 25:
        return refusal->place + 2;
    case 26:
        return opening_too_great(&blamed->text, refusal->place) ? 1 : refusal->place + 2;
    default:
        return 0;
    }
}

static void show_line(const Text *text, uint64_t number)
{
    Text shown = {0};

    put_visible(&shown, line_of(text, number));
    say("line %llu is %.*s", (unsigned long long)number, (int)shown.length, shown.bytes);
    text_free(&shown);
}

static void show_table_line(const Text *table, uint64_t number)
{
    Text shown = {0};

    put_visible(&shown, line_of(table, number + 2));
    say("the table's line %llu is %.*s", (unsigned long long)number, (int)shown.length, shown.bytes);
    text_free(&shown);
}

/* Adds a word as a shell takes it back. */
static void put_quoted(Text *text, const char *word)
{
    text_byte(text, '\'');
    for (; *word != '\0'; word++)
        if (*word == '\'')
            text_put(text, "'\\''");
        else
            text_byte(text, *word);
    text_byte(text, '\'');
}

/* Says what happened to a text, and the sed script that takes it back. */
static void offer_sed(const char *what, const char *script, const Source *blamed)
{
    Text quoted = {0};

    put_quoted(&quoted, blamed->name);
    if (blamed->standard)
        say("%s; pass it through sed '%s'", what, script);
    else
        say("%s; run: sed -i '%s' %.*s", what, script, (int)quoted.length, quoted.bytes);
    text_free(&quoted);
}

/* For 14: a command or a word that makes the text right, if there is one. */
static void name_remedy(const Refusal *refusal, const Source *blamed)
{
    Slice line = line_of(&blamed->text, refusal->place);
    const char *at;

    if (refusal->column > line.length) {
        say(blamed->text.length == 0 ? "the file is empty" : "the text ends here, too early: every line needs a line end, the last one too");
        return;
    }
    at = line.bytes + (refusal->column - 1);
    line.length -= (size_t)(refusal->column - 1);
    if (*at == '\r')
        offer_sed("the text was saved with Windows line ends", "s/\\r$//", blamed);
    else if (line.length >= 3 && memcmp(at, "\xEF\xBB\xBF", 3) == 0)
        offer_sed("the text begins with a byte order mark", "1s/^\\xEF\\xBB\\xBF//", blamed);
    else if (line.length >= 2 && (memcmp(at, "\xFF\xFE", 2) == 0 || memcmp(at, "\xFE\xFF", 2) == 0))
        say("the text was saved as UTF-16; save it as plain text, ASCII or UTF-8 without a byte order mark");
}

static void say_range(const char *what, uint64_t count)
{
    if (count == 0)
        say("the table has no %ss", what);
    else if (count == 1)
        say("the table has %s 0 only", what);
    else
        say("the table has %ss 0 to %llu", what, (unsigned long long)(count - 1));
}

/* For 9 and 20, the line that the command names. */
static void detail_line(const Asked *asked)
{
    Slice fields[3];
    uint64_t line = 0;

    if (split(asked->words, fields, 3) < 2 || !whole_number(fields[1], &line) || line >= lines_of(&asked->table->text))
        say_range("line", lines_of(&asked->table->text));
    else
        show_table_line(&asked->table->text, line);
}

static void detail(const Refusal *refusal, const Asked *asked, const Source *blamed)
{
    switch (refusal->number) {
    case 3:
    case 6:
    case 11:
    case 25:
        say_range("part", parts_of(&asked->table->text));
        break;
    case 7:
        say("the table has %llu parts", (unsigned long long)parts_of(&asked->table->text));
        break;
    case 9:
    case 20:
        detail_line(asked);
        break;
    case 14:
        name_remedy(refusal, blamed);
        break;
    case 26:
        if (opening_too_great(&blamed->text, refusal->place))
            say("the opening count of part %llu is too great", (unsigned long long)refusal->place);
        break;
    default:
        break;
    }
}

/* For the refusal of a change in a letter: its line there. */
static void explain_change(const Refusal *refusal, const Asked *asked)
{
    say("%s, line %llu: %s", asked->letter->name, (unsigned long long)asked->letter_line, meaning_of(refusal->number));
    show_line(&asked->letter->text, asked->letter_line);
    say("no change of the letter was made to %s", asked->table->name);
    detail(refusal, asked, asked->table);
}

void explain(const Refusal *refusal, const Asked *asked)
{
    const Source *blamed = asked->second_refused ? asked->second : asked->table;
    const char *meaning = meaning_of(refusal->number);
    uint64_t line = line_in_question(refusal, blamed);
    bool text_refused = refusal->number == 14 || refusal->number == 17 || refusal->number == 22;

    if (asked->letter != NULL && !text_refused) {
        explain_change(refusal, asked);
        return;
    }
    if (refusal->number == 14)
        say("%s, line %llu, column %llu: %s", blamed->name, (unsigned long long)line, (unsigned long long)refusal->column, meaning);
    else if (line > 0)
        say("%s, line %llu: %s", blamed->name, (unsigned long long)line, meaning);
    else if (asked->words.length > 0 && !text_refused)
        say("%s, %.*s: %s", blamed->name, (int)asked->words.length, asked->words.bytes, meaning);
    else
        say("%s: %s", blamed->name, meaning);
    if (line > 0)
        show_line(&blamed->text, line);
    detail(refusal, asked, blamed);
}

void bad_line(const Source *source, uint64_t line, uint64_t column, const char *what)
{
    Refusal refusal = {14, line, column};

    say("%s, line %llu: %s", source->name, (unsigned long long)line, what);
    show_line(&source->text, line);
    name_remedy(&refusal, source);
    exit(TROUBLE);
}

bool next_plain_line(const Source *source, Slice *rest, Slice *line, uint64_t *number)
{
    const char *end;

    if (!next_line(rest, line))
        return false;
    ++*number;
    if (*number == 1 && line->length >= 3 && memcmp(line->bytes, "\xEF\xBB\xBF", 3) == 0)
        bad_line(source, 1, 1, "the text begins with a byte order mark");
    end = memchr(line->bytes, '\r', line->length);
    if (end != NULL)
        bad_line(source, *number, (uint64_t)(end - line->bytes) + 1, "the line has a carriage return");
    if (line->bytes + line->length == source->text.bytes + source->text.length)
        bad_line(source, *number, line->length + 1, "the last line has no line end");
    return true;
}
