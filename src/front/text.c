#include "text.h"

#include <stdio.h>
#include <stdlib.h>
#include <string.h>

#include "say.h"

void *zeroed(size_t count, size_t size)
{
    void *made = calloc(count == 0 ? 1 : count, size);

    if (made == NULL)
        fail("out of memory");
    return made;
}

void text_add(Text *text, const char *bytes, size_t length)
{
    if (length == 0)
        return;
    if (text->room - text->length < length) {
        size_t room = 2 * text->room + length + 64;
        char *longer = realloc(text->bytes, room);

        if (longer == NULL)
            fail("out of memory");
        text->bytes = longer;
        text->room = room;
    }
    memcpy(text->bytes + text->length, bytes, length);
    text->length += length;
}

void text_put(Text *text, const char *string)
{
    text_add(text, string, strlen(string));
}

void text_slice(Text *text, Slice slice)
{
    text_add(text, slice.bytes, slice.length);
}

void text_byte(Text *text, char byte)
{
    text_add(text, &byte, 1);
}

void text_number(Text *text, uint64_t number)
{
    char digits[24];
    int length = snprintf(digits, sizeof digits, "%llu", (unsigned long long)number);

    text_add(text, digits, (size_t)length);
}

void text_free(Text *text)
{
    free(text->bytes);
    *text = (Text){0};
}

Slice slice_of(const Text *text)
{
    return (Slice){text->bytes, text->length};
}

Slice slice_string(const char *string)
{
    return (Slice){string, strlen(string)};
}

bool slice_is(Slice slice, const char *string)
{
    return slice.length == strlen(string) && (slice.length == 0 || memcmp(slice.bytes, string, slice.length) == 0);
}

bool next_line(Slice *rest, Slice *line)
{
    const char *end;

    if (rest->length == 0)
        return false;
    end = memchr(rest->bytes, '\n', rest->length);
    line->bytes = rest->bytes;
    line->length = end == NULL ? rest->length : (size_t)(end - rest->bytes);
    rest->bytes += line->length + (end != NULL);
    rest->length -= line->length + (end != NULL);
    return true;
}

Slice line_of(const Text *text, uint64_t number)
{
    Slice rest = slice_of(text), line = {NULL, 0};

    for (uint64_t at = 0; at < number; at++)
        if (!next_line(&rest, &line))
            return (Slice){NULL, 0};
    /* next_line leaves the LF out: it is there unless the text ends without one */
    if (line.bytes + line.length < text->bytes + text->length)
        line.length++;
    return line;
}

size_t split(Slice line, Slice *fields, size_t most)
{
    size_t count = 0;

    while (count < most) {
        const char *space = line.length == 0 || count + 1 == most ? NULL : memchr(line.bytes, ' ', line.length);
        size_t width = space == NULL ? line.length : (size_t)(space - line.bytes);

        fields[count++] = (Slice){line.bytes, width};
        if (space == NULL)
            break;
        line.bytes += width + 1;
        line.length -= width + 1;
    }
    return count;
}

bool whole_number(Slice slice, uint64_t *number)
{
    uint64_t value = 0;

    if (slice.length == 0 || slice.length > 18 || (slice.length > 1 && slice.bytes[0] == '0'))
        return false;
    for (size_t at = 0; at < slice.length; at++) {
        if (slice.bytes[at] < '0' || slice.bytes[at] > '9')
            return false;
        value = 10 * value + (uint64_t)(slice.bytes[at] - '0');
    }
    *number = value;
    return true;
}
