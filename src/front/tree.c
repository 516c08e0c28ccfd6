#include "tree.h"

#include <stdlib.h>

#include "say.h"
#include "table.h"

typedef struct {
    uint64_t line, part, own;
} Item;

/* The rows of a bill: after a row come those of the parts that its line needs, in order. */
typedef struct {
    Table table;
    Item *items;
    size_t count;
    Text *out;
    const Style *style;
} Tree;

static const Line *line_at(const Tree *tree, size_t at)
{
    if (at >= tree->count || tree->items[at].line >= tree->table.count)
        fail("cannot understand the bill");
    return &tree->table.lines[tree->items[at].line];
}

/* The row after all that belongs to the one at AT. */
static size_t past(const Tree *tree, size_t at)
{
    for (size_t open = 1; open > 0; at++)
        open += line_at(tree, at)->count - 1;
    return at;
}

/* The figure of one piece, from the own figures of its rows: their sum in cost, the longest chain in days, the least in grade. */
static uint64_t figure_at(const Tree *tree, size_t at)
{
    uint64_t own = tree->items[at].own, most = 0;
    size_t after = past(tree, at);

    for (size_t next = at + 1; tree->table.measure == DAYS && next < after; next = past(tree, next)) {
        uint64_t figure = figure_at(tree, next);

        most = figure > most ? figure : most;
    }
    for (size_t next = at + 1; tree->table.measure != DAYS && next < after; next++) {
        uint64_t figure = tree->items[next].own;

        own = tree->table.measure == COST ? own + figure : figure < own ? figure : own;
    }
    return own + most;
}

static void put_numbers(Text *out, char between, const uint64_t *numbers, size_t count)
{
    for (size_t at = 0; at < count; at++) {
        if (at > 0)
            text_byte(out, between);
        text_number(out, numbers[at]);
    }
}

static void put_item(const Tree *tree, size_t at, uint64_t level, uint64_t quantity)
{
    const Item *item = &tree->items[at];
    uint64_t figure = figure_at(tree, at);
    uint64_t numbers[] = {level, item->line, item->part, quantity, figure, quantity * figure};
    size_t count = tree->table.measure == COST ? 6 : 5;
    Slice name = tree->style->names == NULL ? (Slice){NULL, 0} : name_of(tree->style->names, item->part);

    if (tree->style->csv) {
        put_numbers(tree->out, ',', numbers, count);
        if (tree->style->names != NULL)
            text_byte(tree->out, ',');
        put_csv(tree->out, &name, tree->style->names != NULL);
        return;
    }
    for (uint64_t indent = 0; indent < level; indent++)
        text_put(tree->out, "  ");
    put_numbers(tree->out, ' ', numbers + 1, count - 1);
    if (name.length > 0)
        text_byte(tree->out, ' ');
    text_slice(tree->out, name);
    text_byte(tree->out, '\n');
}

/* A part that a line needs several times gets one row, with its quantity. */
static void put_branch(const Tree *tree, size_t at, uint64_t level, uint64_t quantity)
{
    const Line *line = line_at(tree, at);
    size_t next = at + 1;

    put_item(tree, at, level, quantity);
    for (size_t place = 0; place < line->count; place++, next = past(tree, next)) {
        uint64_t times = times_needed(line, place);

        if (times > 0)
            put_branch(tree, next, level + 1, quantity * times);
    }
}

/* Reads the rows of a bill; the last one, the part with its state and figure, is none of them. */
static void read_bill(Tree *tree, const Text *answer)
{
    Slice rest = slice_of(answer), line, fields[3];

    tree->items = zeroed(answer->length / 6 + 1, sizeof *tree->items);
    while (next_line(&rest, &line)) {
        Item *item = &tree->items[tree->count];

        if (split(line, fields, 3) == 3 && whole_number(fields[1], &item->part)) {
            if (!whole_number(fields[0], &item->line) || !whole_number(fields[2], &item->own))
                fail("cannot understand the bill");
            tree->count++;
        } else if (!slice_is(fields[1], "made")) {
            say("the figure of part %.*s is above 1,000,000,000,000: do not quote it", (int)fields[0].length, fields[0].bytes);
        }
    }
}

void put_tree(Text *out, const Text *text, const Text *answer, const Style *style)
{
    Tree tree = {.out = out, .style = style};

    read_table(&tree.table, text);
    read_bill(&tree, answer);
    if (style->csv) {
        text_put(out, tree.table.measure == COST ? "level,line,part,quantity,figure,extended" : "level,line,part,quantity,figure");
        text_put(out, style->names == NULL ? "\r\n" : ",name\r\n");
    } else if (style->header) {
        text_put(out, tree.table.measure == COST ? "line part quantity figure extended" : "line part quantity figure");
        text_put(out, style->names == NULL ? "\n" : " name\n");
    }
    put_branch(&tree, 0, 0, 1);
    free(tree.items);
    free_table(&tree.table);
}
