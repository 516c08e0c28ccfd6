#include "table.h"

#include <stdlib.h>

#include "refusal.h"
#include "say.h"

static void read_line(Line *line, Slice text)
{
    Slice fields[MOST_NEEDS + 3];
    size_t count = split(text, fields, MOST_NEEDS + 3);

    *line = (Line){.count = count < 2 ? 0 : count - 2};
    if (count < 2 || count > MOST_NEEDS + 2)
        fail("cannot understand a line of the table");
    line->struck = fields[1].length > 0 && fields[1].bytes[0] == '-';
    if (line->struck)
        fields[1] = (Slice){fields[1].bytes + 1, fields[1].length - 1};
    if (!whole_number(fields[0], &line->part) || !whole_number(fields[1], &line->figure))
        fail("cannot understand a line of the table");
    for (size_t at = 0; at < line->count; at++)
        if (!whole_number(fields[at + 2], &line->needs[at]))
            fail("cannot understand a line of the table");
}

void read_table(Table *table, const Text *text)
{
    Slice rest = slice_of(text), line = {NULL, 0}, fields[3] = {{NULL, 0}, {NULL, 0}, {NULL, 0}};

    next_line(&rest, &line);
    split(line, fields, 3);
    *table = (Table){.parts = parts_of(text), .count = lines_of(text)};
    table->measure = slice_is(fields[2], "cost") ? COST : slice_is(fields[2], "grade") ? GRADE : DAYS;
    table->lines = zeroed((size_t)table->count, sizeof *table->lines);
    for (uint64_t at = 0; next_line(&rest, &line); at++)
        read_line(&table->lines[at], line);
}

uint64_t times_needed(const Line *line, size_t place)
{
    uint64_t times = 0;

    for (size_t other = 0; other < line->count; other++)
        if (line->needs[other] == line->needs[place]) {
            if (other < place)
                return 0;
            times++;
        }
    return times;
}

void free_table(Table *table)
{
    free(table->lines);
}
