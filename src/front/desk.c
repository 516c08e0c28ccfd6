/* desk: a command on a table in a file. */
#include <errno.h>
#include <stdlib.h>
#include <string.h>
#include <unistd.h>

#include "child.h"
#include "commands.h"
#include "graph.h"
#include "letter.h"
#include "refusal.h"
#include "replace.h"
#include "rows.h"
#include "say.h"
#include "tree.h"
#include "words.h"

/* A command with its inputs, and what comes of it. */
typedef struct {
    const Options *options;
    const Command *command;
    Source table, second;
    Target target;
    Names names;
    Answer answer;
    /* of a letter, the line of the last change that was asked for */
    uint64_t letter_line;
    Text out;
} Request;

static void emit_help(const Options *options)
{
    Text help = {0};
    const Command *command = NULL;

    for (size_t at = 0; at < options->count && at < 2 && command == NULL; at++)
        command = command_of(options->words[at]);
    if (command != NULL)
        put_command_help(&help, command);
    else
        put_desk_help(&help);
    emit(slice_of(&help));
    text_free(&help);
}

static void help_with(const Options *options)
{
    if (options->count > 2)
        fail("help takes one command (desk help)");
    if (options->count == 2 && command_of(options->words[1]) == NULL)
        unknown_command(options->words[1]);
    emit_help(options);
}

/* Options that a command does not have are mistakes. */
static void check_options(const Options *options, const Command *command)
{
    if (options->write && !(command->options & WRITE))
        fail("%s changes no table: --write is for reprice, strike, restore, append and letter", command->word);
    if (options->tree && !(command->options & TREE))
        fail("--tree is for bill (desk help %s)", command->word);
    if (options->report && !(command->options & REPORT))
        fail("--report is for letter (desk help %s)", command->word);
    if ((options->csv || options->header) && (!(command->options & ROWS) || (command->name == LETTER && !options->report)))
        fail("%s prints no rows: --csv and --header are for price, bill, uses, compare, replay, mean and letter --report", command->word);
    if (options->names != NULL && (!(command->options & NAMES) || (command->name == LETTER && !options->report)))
        fail("%s prints no names: --names is for price, bill, uses, compare, replay, graph and letter --report", command->word);
    if (options->write && strcmp(options->words[0], "-") == 0)
        fail("standard input is not a file: --write cannot replace it");
}

/* The command of the words FILE COMMAND OPERANDS, after every check that needs no file. */
static const Command *find_command(const Options *options)
{
    const Command *command;

    if (options->count < 2)
        fail("a file and a command are needed (desk --help)");
    command = command_of(options->words[1]);
    if (command == NULL && command_of(options->words[0]) != NULL && access(options->words[0], F_OK) != 0)
        fail("the file comes before the command: desk FILE %s (desk help %s)", options->words[0], options->words[0]);
    if (command == NULL)
        unknown_command(options->words[1]);
    check_operands(command, options->words + 2, options->count - 2);
    check_options(options, command);
    return command;
}

static void read_inputs(Request *request)
{
    const Options *options = request->options;

    if (options->write)
        open_target(&request->target, options->words[0], &request->table);
    else
        read_source(&request->table, options->words[0], MOST_TEXT, true);
    if (request->command->file)
        read_source(&request->second, options->words[2], MOST_TEXT, false);
}

/* Asks `parts` the command itself; a letter is many commands, and a graph begins with the list or the bill. */
static void ask_command(Request *request)
{
    const Options *options = request->options;
    const Command *command = request->command;
    const char *words[20] = {command->word};

    if (command->name == LETTER) {
        carry_out(&request->second, &request->table, &request->answer, &request->letter_line);
        return;
    }
    for (size_t at = 2; !command->file && at < options->count; at++)
        words[at - 1] = options->words[at];
    if (command->name == GRAPH)
        words[0] = options->count > 2 ? "bill" : "price";
    ask("parts", words, &request->table.text, command->file ? &request->second.text : NULL, &request->answer);
}

/* The words of a command, or of a refused change of a letter, as a message shows them. */
static void put_words(Text *words, const Request *request)
{
    const Options *options = request->options;
    Slice change;

    if (request->command->name == LETTER) {
        change = line_of(&request->second.text, request->letter_line);
        text_put(words, "reprice ");
        text_add(words, change.bytes, change.length - 1);
        return;
    }
    for (size_t at = 1; at < options->count; at++) {
        if (at > 1)
            text_byte(words, ' ');
        text_put(words, options->words[at]);
    }
}

static void report_refusal(const Request *request, const Refusal *refusal)
{
    bool letter = request->command->name == LETTER;
    Text words = {0};
    Asked asked = {&request->table, &request->second, request->answer.second_refused, {NULL, 0}, letter ? &request->second : NULL, request->letter_line};

    put_words(&words, request);
    asked.words = slice_of(&words);
    emit(slice_of(&request->answer.output));
    explain(refusal, &asked);
    text_free(&words);
}

/* The parts that a file of names may name: those of either table. */
static uint64_t known_parts(const Request *request)
{
    uint64_t parts = parts_of(&request->table.text), others = parts_of(&request->second.text);

    return request->command->name == COMPARE && others > parts ? others : parts;
}

static void put_answer(Request *request, const Style *style)
{
    static const char *const price[] = {"price", NULL};
    const Options *options = request->options;
    Answer more = {0};

    if (options->tree) {
        put_tree(&request->out, &request->table.text, &request->answer.output, style);
    } else if (request->command->name == GRAPH) {
        bool whole = options->count == 2;

        if (!whole)
            ask("parts", price, &request->table.text, NULL, &more);
        put_graph(&request->out, &request->table.text, whole ? &request->answer.output : &more.output, whole ? NULL : &request->answer.output, style->names);
    } else if (options->report) {
        ask("parts", (const char *const[]){"compare", NULL}, &request->table.text, &request->answer.output, &more);
        put_rows(&request->out, COMPARE, &more.output, style);
    } else if (request->command->options & ROWS && request->command->name != LETTER) {
        put_rows(&request->out, request->command->name, &request->answer.output, style);
    } else {
        text_slice(&request->out, slice_of(&request->answer.output));
    }
    text_free(&more.output);
}

/* The word of a measure in a table's first line; none for days. */
static Slice measure_of(const Text *table)
{
    Slice rest = slice_of(table), line = {NULL, 0}, fields[3] = {{NULL, 0}, {NULL, 0}, {NULL, 0}};

    next_line(&rest, &line);
    split(line, fields, 3);
    return fields[2];
}

static bool measures_differ(const Request *request)
{
    Slice one = measure_of(&request->table.text), other = measure_of(&request->second.text);

    return one.length != other.length || (one.length > 0 && memcmp(one.bytes, other.bytes, one.length) != 0);
}

/* The answer is printed before a file is replaced: a report that can't be written leaves the old table. */
static void deliver(Request *request)
{
    const Options *options = request->options;
    Style style = {options->csv, options->header, options->names != NULL ? &request->names : NULL};

    if (options->names != NULL)
        read_names(&request->names, options->names, known_parts(request));
    put_answer(request, &style);
    if (!options->write || options->report)
        emit(slice_of(&request->out));
    if (request->command->name == COMPARE && measures_differ(request))
        say("%s and %s are in different measures", request->table.name, request->second.name);
    if (options->write)
        replace_target(&request->target, slice_of(&request->table.text), slice_of(&request->answer.output));
}

static int carry_through(const Options *options)
{
    Request request = {.options = options, .command = find_command(options)};
    Refusal refusal;
    bool refused;

    read_inputs(&request);
    ask_command(&request);
    refused = read_refusal(&request.answer.output, &refusal);
    if (refused)
        report_refusal(&request, &refusal);
    else
        deliver(&request);
    free_target(&request.target);
    free_names(&request.names);
    text_free(&request.table.text);
    text_free(&request.second.text);
    text_free(&request.answer.output);
    text_free(&request.out);
    return refused ? REFUSED : ANSWERED;
}

int main(int count, char **words)
{
    Options options;
    int status = ANSWERED;

    program_name = "desk";
    open_streams();
    read_options(&options, count, words, true);
    if (options.version)
        emit_version();
    else if (options.help)
        emit_help(&options);
    else if (options.count > 0 && strcmp(options.words[0], "help") == 0)
        help_with(&options);
    else
        status = carry_through(&options);
    free(options.words);
    return status;
}
