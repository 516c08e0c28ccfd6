#include "rows.h"

#include <string.h>

enum { MOST_FIELDS = 8 };

/* The names of a command's fields, as the plain rows and as CSV have them. */
static const struct {
    Name command;
    const char *plain, *csv;
} shapes[] = {
    {PRICE, "part state figure depth line pieces", "part state figure depth line pieces"},
    {BILL, "line part figure", "line part state figure"},
    {USES, "line part figure needs", "line part figure struck needs"},
    {COMPARE, "part state figure new_state new_figure", "part state figure new_state new_figure"},
    {REPLAY, "part outcome", "part outcome count"},
    {MEAN, "numerator denominator", "statistic numerator denominator"},
};

/* A row's fields, and its part if it has one. */
typedef struct {
    Slice fields[MOST_FIELDS];
    size_t count;
    bool has_part;
    uint64_t part;
} Row;

static void put_cell(Text *out, Slice field)
{
    bool plain = true;

    for (size_t at = 0; at < field.length; at++)
        if (strchr(",\"\r\n", field.bytes[at]) != NULL)
            plain = false;
    if (plain) {
        text_slice(out, field);
        return;
    }
    text_byte(out, '"');
    for (size_t at = 0; at < field.length; at++) {
        if (field.bytes[at] == '"')
            text_byte(out, '"');
        text_byte(out, field.bytes[at]);
    }
    text_byte(out, '"');
}

void put_csv(Text *out, const Slice *fields, size_t count)
{
    for (size_t at = 0; at < count; at++) {
        if (at > 0)
            text_byte(out, ',');
        put_cell(out, fields[at]);
    }
    text_put(out, "\r\n");
}

/* The last row of a bill, whose second field is a state. */
static bool closes_bill(const Row *row)
{
    uint64_t number;

    return !whole_number(row->fields[1], &number);
}

static void read_row(Row *row, Name command, Slice line)
{
    size_t at = command == BILL || command == USES ? 1 : 0;

    row->count = split(line, row->fields, command == USES ? 4 : MOST_FIELDS);
    if (command == BILL && closes_bill(row))
        at = 0;
    row->has_part = command != MEAN && whole_number(row->fields[at], &row->part);
}

static void add_name(Row *row, const Style *style)
{
    if (style->names != NULL)
        row->fields[row->count++] = row->has_part ? name_of(style->names, row->part) : (Slice){NULL, 0};
}

static void put_row(Text *out, Row *row, const Style *style)
{
    add_name(row, style);
    if (style->csv) {
        put_csv(out, row->fields, row->count);
        return;
    }
    /* a part without a name has no last field */
    if (style->names != NULL && row->fields[row->count - 1].length == 0)
        row->count--;
    for (size_t at = 0; at < row->count; at++) {
        if (at > 0)
            text_byte(out, ' ');
        text_slice(out, row->fields[at]);
    }
    text_byte(out, '\n');
}

/* The last line of a replay as CSV: a row for each part. */
static void put_stock(Text *out, Slice line, const Style *style)
{
    Slice halves[2] = {line, line};
    bool more = split(line, halves, 2) == 2;

    for (uint64_t part = 0; more; part++) {
        Text number = {0};
        Row row = {.count = 3, .has_part = true, .part = part};

        more = split(halves[1], halves, 2) == 2;
        text_number(&number, part);
        row.fields[0] = slice_of(&number);
        row.fields[1] = slice_string("stock");
        row.fields[2] = halves[0];
        put_row(out, &row, style);
        text_free(&number);
    }
}

/* The fields of a plain row as CSV has them: each in a column of its own, equally many in all rows. */
static void shape_row(Row *row, Name command, uint64_t number)
{
    static const Slice none = {NULL, 0};
    Slice *field = row->fields, figure = row->fields[2], needs = row->count > 3 ? row->fields[3] : none;
    bool struck = command == USES && figure.bytes[0] == '-';

    if (command == BILL && closes_bill(row)) {
        field[3] = field[2], field[2] = field[1], field[1] = field[0], field[0] = none;
        row->count = 4;
    } else if (command == BILL) {
        field[3] = figure, field[2] = none;
        row->count = 4;
    } else if (command == USES) {
        field[2] = struck ? (Slice){figure.bytes + 1, figure.length - 1} : figure;
        field[3] = slice_string(struck ? "yes" : "no");
        field[4] = needs;
        row->count = 5;
    } else if (command == REPLAY) {
        field[2] = none;
        row->count = 3;
    } else if (command == MEAN) {
        field[2] = field[1], field[1] = field[0], field[0] = slice_string(number == 0 ? "mean" : "variance");
        row->count = 3;
    }
}

static void put_header(Text *out, const char *names, const Style *style)
{
    Row row = {.count = 0};

    row.count = split(slice_string(names), row.fields, MOST_FIELDS);
    if (style->names != NULL)
        row.fields[row.count++] = slice_string("name");
    put_row(out, &row, &(Style){.csv = style->csv});
}

static void put_line(Text *out, Name command, Slice line, uint64_t number, const Style *style)
{
    Row row = {.count = 0};
    bool stock = command == REPLAY && line.length >= 5 && memcmp(line.bytes, "stock", 5) == 0;

    if (stock && style->csv) {
        put_stock(out, line, style);
        return;
    }
    if (stock) {
        text_slice(out, line);
        text_byte(out, '\n');
        return;
    }
    read_row(&row, command, line);
    if (command == BILL && closes_bill(&row) && style->header && !style->csv)
        put_header(out, "part state figure", style);
    if (style->csv)
        shape_row(&row, command, number);
    put_row(out, &row, style);
}

void put_rows(Text *out, Name command, const Text *answer, const Style *style)
{
    Slice rest = slice_of(answer), line;
    uint64_t number = 0;
    size_t shape = 0;

    while (shapes[shape].command != command)
        shape++;
    /* the list has its names in any case */
    if (style->csv || style->header || command == PRICE)
        put_header(out, style->csv ? shapes[shape].csv : shapes[shape].plain, style);
    if (command == PRICE)
        next_line(&rest, &line);
    for (; next_line(&rest, &line); number++)
        put_line(out, command, line, number, style);
}
