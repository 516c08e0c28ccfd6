#include "names.h"

#include <stdio.h>
#include <stdlib.h>

#include "refusal.h"
#include "say.h"

/* The length of the UTF-8 character at the start of some bytes, or 0 if there is none; a control character counts as none. */
static size_t character(const unsigned char *at, size_t left)
{
    static const uint32_t least[] = {0, 0, 0x80, 0x800, 0x10000};
    size_t length = at[0] < 0x80 ? 1 : at[0] >= 0xC2 && at[0] < 0xE0 ? 2 : (at[0] & 0xF0) == 0xE0 ? 3 : at[0] >= 0xF0 && at[0] < 0xF5 ? 4 : 0;
    uint32_t value = length == 1 ? at[0] : at[0] & (0xFFU >> (length + 1));

    if (length == 0 || length > left)
        return 0;
    for (size_t next = 1; next < length; next++) {
        if ((at[next] & 0xC0) != 0x80)
            return 0;
        value = value << 6 | (at[next] & 0x3FU);
    }
    if (value < least[length] || value > 0x10FFFF || (value >= 0xD800 && value < 0xE000) || value < 0x20 || (value >= 0x7F && value < 0xA0))
        return 0;
    return length;
}

static void check_name(const Names *names, uint64_t line, Slice name)
{
    size_t at = 0;

    if (name.length == 0)
        bad_line(&names->source, line, 1, "a line needs a part number, a space and a name");
    while (at < name.length) {
        size_t length = character((const unsigned char *)name.bytes + at, name.length - at);

        if (length == 0)
            bad_line(&names->source, line, 1, "the name is not UTF-8, or has a tab or another control character");
        at += length;
    }
}

static void take_name(Names *names, uint64_t number, Slice line)
{
    Slice fields[2] = {{NULL, 0}, {NULL, 0}};
    char what[160];
    uint64_t part;

    split(line, fields, 2);
    if (!whole_number(fields[0], &part))
        bad_line(&names->source, number, 1, "a line needs a part number, a space and a name");
    check_name(names, number, fields[1]);
    if (part >= names->parts) {
        snprintf(what, sizeof what, "the table has no part %llu", (unsigned long long)part);
        bad_line(&names->source, number, 1, what);
    }
    if (names->lines[part] != 0) {
        snprintf(what, sizeof what, "part %llu has a name already, in line %llu", (unsigned long long)part, (unsigned long long)names->lines[part]);
        bad_line(&names->source, number, 1, what);
    }
    names->lines[part] = number;
    names->names[part] = fields[1];
}

void read_names(Names *names, const char *file, uint64_t parts)
{
    Slice rest, line;
    uint64_t number = 0;

    *names = (Names){.parts = parts};
    read_source(&names->source, file, MOST_NAMES + 1, false);
    if (names->source.text.length > MOST_NAMES)
        fail("%s is longer than 1,048,576 bytes: it is not a file of names", file);
    names->names = zeroed((size_t)parts, sizeof *names->names);
    names->lines = zeroed((size_t)parts, sizeof *names->lines);
    rest = slice_of(&names->source.text);
    while (next_plain_line(&names->source, &rest, &line, &number))
        take_name(names, number, line);
}

Slice name_of(const Names *names, uint64_t part)
{
    return part < names->parts ? names->names[part] : (Slice){NULL, 0};
}

void free_names(Names *names)
{
    text_free(&names->source.text);
    free(names->names);
    free(names->lines);
}
