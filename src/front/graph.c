#include "graph.h"

#include <stdlib.h>

#include "say.h"
#include "table.h"

/* A part's row in the list, and how often it is in the bill. */
typedef struct {
    Slice state, figure;
    uint64_t line, count;
} Part;

typedef struct {
    Text *out;
    Table table;
    Part *parts;
    /* of each line whether it is drawn */
    bool *drawn, whole;
    const Names *names;
} Graph;

static void read_list(Graph *graph, const Text *list)
{
    Slice rest = slice_of(list), line, fields[6];

    next_line(&rest, &line);
    for (uint64_t part = 0; part < graph->table.parts; part++) {
        if (!next_line(&rest, &line) || split(line, fields, 6) < 6 || !whole_number(fields[4], &graph->parts[part].line))
            fail("cannot understand the list of parts");
        graph->parts[part].state = fields[1];
        graph->parts[part].figure = fields[2];
    }
}

/* Counts the parts of a bill and marks its lines; without one every line is drawn and every part counts once. */
static void read_bill(Graph *graph, const Text *bill)
{
    Slice rest, line, fields[3];
    uint64_t number, part;

    for (uint64_t at = 0; bill == NULL && at < graph->table.parts; at++)
        graph->parts[at].count = 1;
    for (uint64_t at = 0; bill == NULL && at < graph->table.count; at++)
        graph->drawn[at] = true;
    if (bill == NULL)
        return;
    rest = slice_of(bill);
    while (next_line(&rest, &line))
        if (split(line, fields, 3) == 3 && whole_number(fields[0], &number) && whole_number(fields[1], &part)) {
            if (number >= graph->table.count || part >= graph->table.parts)
                fail("cannot understand the bill");
            graph->drawn[number] = true;
            graph->parts[part].count++;
        }
}

/* Adds a text between the quotes of a label. */
static void put_label(Text *out, Slice text)
{
    for (size_t at = 0; at < text.length; at++) {
        if (text.bytes[at] == '"' || text.bytes[at] == '\\')
            text_byte(out, '\\');
        text_byte(out, text.bytes[at]);
    }
}

static void put_part(const Graph *graph, uint64_t number)
{
    const Part *part = &graph->parts[number];
    bool unmade = slice_is(part->state, "unmade"), made = slice_is(part->state, "made");
    Slice name = graph->names == NULL ? (Slice){NULL, 0} : name_of(graph->names, number);

    text_put(graph->out, "  p");
    text_number(graph->out, number);
    text_put(graph->out, " [label=\"part ");
    text_number(graph->out, number);
    if (name.length > 0)
        text_put(graph->out, "\\n");
    put_label(graph->out, name);
    text_put(graph->out, "\\n");
    if (part->count > 1) {
        text_number(graph->out, part->count);
        text_put(graph->out, " x ");
    }
    text_slice(graph->out, made ? part->figure : part->state);
    text_put(graph->out, unmade ? "\", style=filled, color=gray60, fillcolor=gray90, fontcolor=gray40];\n" : "\"];\n");
}

/* An arrow from each needed part, once, with the number of pieces if it is not 1; and one to the part that the line yields. */
static void put_arrows(const Graph *graph, uint64_t number, const Line *line)
{
    for (size_t at = 0; at < line->count; at++) {
        uint64_t times = times_needed(line, at);

        if (times == 0)
            continue;
        text_put(graph->out, "  p");
        text_number(graph->out, line->needs[at]);
        text_put(graph->out, " -> l");
        text_number(graph->out, number);
        if (times > 1) {
            text_put(graph->out, " [label=\"");
            text_number(graph->out, times);
            text_put(graph->out, "\"]");
        }
        text_put(graph->out, line->struck ? " [style=dashed];\n" : ";\n");
    }
    text_put(graph->out, "  l");
    text_number(graph->out, number);
    text_put(graph->out, " -> p");
    text_number(graph->out, line->part);
    text_put(graph->out, line->struck ? " [style=dashed];\n" : ";\n");
}

/* A line that its part uses has a thick frame in the graph of a whole table. */
static void put_line(const Graph *graph, uint64_t number)
{
    const Line *line = &graph->table.lines[number];
    const Part *part = &graph->parts[line->part];
    bool chosen = part->line == number && !slice_is(part->state, "unmade");

    text_put(graph->out, "  l");
    text_number(graph->out, number);
    text_put(graph->out, " [shape=box, label=\"line ");
    text_number(graph->out, number);
    text_put(graph->out, "\\n");
    text_number(graph->out, line->figure);
    text_put(graph->out, line->struck ? "\", style=dashed];\n" : graph->whole && chosen ? "\", penwidth=2];\n" : "\"];\n");
    put_arrows(graph, number, line);
}

void put_graph(Text *out, const Text *text, const Text *list, const Text *bill, const Names *names)
{
    Graph graph = {.out = out, .names = names, .whole = bill == NULL};

    read_table(&graph.table, text);
    graph.parts = zeroed((size_t)graph.table.parts, sizeof *graph.parts);
    graph.drawn = zeroed((size_t)graph.table.count, sizeof *graph.drawn);
    read_list(&graph, list);
    read_bill(&graph, bill);
    text_put(out, "digraph parts {\n  rankdir=BT;\n  node [fontname=\"sans-serif\"];\n  edge [fontname=\"sans-serif\"];\n");
    for (uint64_t part = 0; part < graph.table.parts; part++)
        if (graph.parts[part].count > 0)
            put_part(&graph, part);
    for (uint64_t line = 0; line < graph.table.count; line++)
        if (graph.drawn[line])
            put_line(&graph, line);
    text_put(out, "}\n");
    free(graph.parts);
    free(graph.drawn);
    free_table(&graph.table);
}
