#include "commands.h"

#include <string.h>

#include "say.h"

static const Command commands[] = {
    {PRICE, "price", "", "no further words", 0, 0, false, ROWS | NAMES,
     "lists all parts, as `price` does: part, state, figure, depth, line, pieces", "examples/week.parts price"},
    {BILL, "bill", "PART", "one part number", 1, 1, false, ROWS | NAMES | TREE,
     "prints the bill of a part: line, part, own figure; last the part, its state and its figure", "examples/week.parts bill 3"},
    {USES, "uses", "PART", "one part number", 1, 1, false, ROWS | NAMES,
     "prints the lines that need a part: the line's number, then the line as the table has it", "examples/week.parts uses 1"},
    {REPRICE, "reprice", "LINE FIGURE", "a line number and a figure", 2, 2, false, WRITE,
     "prints the table with another own figure in a line", "examples/week.parts reprice 1 350"},
    {STRIKE, "strike", "LINE", "one line number", 1, 1, false, WRITE,
     "prints the table with a line struck; the line keeps its figure", "examples/week.parts strike 2"},
    {RESTORE, "restore", "LINE", "one line number", 1, 1, false, WRITE,
     "prints the table with a struck line restored", "examples/lead-times.parts restore 6"},
    {APPEND, "append", "PART FIGURE [PART...]", "a part number, a figure, and up to 16 numbers of needed parts", 2, 18, false, WRITE,
     "prints the table with one line more, which yields the first part from the others", "examples/week.parts append 4 100 0 0 1"},
    {LETTER, "letter", "CHANGES", "one file, with a line LINE FIGURE for each change", 1, 1, true, WRITE | REPORT | ROWS | NAMES,
     "prints the table with every change of a price letter, or changes nothing", "examples/week.parts letter examples/may.letter"},
    {CHECK, "check", "", "no further words", 0, 0, false, 0, "prints nothing if the table is accepted", "examples/week.parts check"},
    {CHECK_ORDER, "check-order", "", "no further words", 0, 0, false, 0,
     "also checks that each line needs only parts with lower numbers than its own", "examples/week.parts check-order"},
    {COMPARE, "compare", "SECOND", "one file, the second table", 1, 1, true, ROWS | NAMES,
     "prints the parts whose state or figure differs in a second table: part, then state and figure in both", "examples/week.parts compare examples/letter.parts"},
    {REPLAY, "replay", "RECORD", "one file, the record", 1, 1, true, ROWS | NAMES,
     "runs a record of receipts and orders: the part and the outcome of each event; last the counts that are left", "examples/week.parts replay examples/shelf.record"},
    {MEAN, "mean", "", "no further words", 0, 0, false, ROWS,
     "prints mean and variance of the results in FILE, one on each line, as numerator and denominator", "examples/year.results mean"},
    {GRAPH, "graph", "[PART]", "one part number, or none for the whole table", 0, 1, false, NAMES,
     "prints a Graphviz graph of a part's chosen make-up, or of the table, for `| dot -Tsvg`", "examples/week.parts graph 3"},
};

enum { COMMANDS = sizeof commands / sizeof commands[0] };

const Command *command_of(const char *word)
{
    for (size_t at = 0; at < COMMANDS; at++)
        if (strcmp(commands[at].word, word) == 0)
            return &commands[at];
    return NULL;
}

/* How many letters must be added, taken or changed to make one word of another; of a long word a large number. */
static size_t distance(const char *one, const char *other)
{
    size_t row[32], width = strlen(other);

    if (width + 1 > sizeof row / sizeof row[0])
        return 32;
    for (size_t at = 0; at <= width; at++)
        row[at] = at;
    for (size_t taken = 1; one[taken - 1] != '\0'; taken++) {
        size_t corner = row[0];

        row[0] = taken;
        for (size_t at = 1; at <= width; at++) {
            size_t changed = corner + (one[taken - 1] != other[at - 1]);

            corner = row[at];
            row[at] = row[at] < row[at - 1] ? row[at] + 1 : row[at - 1] + 1;
            row[at] = changed < row[at] ? changed : row[at];
        }
    }
    return row[width];
}

void unknown_command(const char *word)
{
    const Command *nearest = &commands[0];

    for (size_t at = 1; at < COMMANDS; at++)
        if (distance(word, commands[at].word) < distance(word, nearest->word))
            nearest = &commands[at];
    if (distance(word, nearest->word) <= 2)
        fail("unknown command: %s; did you mean %s? (desk --help lists all)", word, nearest->word);
    fail("unknown command: %s (desk --help lists all)", word);
}

/* Why a word is no number, and ends. */
static void not_a_number(const Command *command, const char *word)
{
    size_t length = strlen(word), digits = strspn(word, "0123456789");

    if (length == digits && length > 1 && word[0] == '0')
        fail("%s has a leading zero: write whole numbers without it (desk help %s)", word, command->word);
    if (length == digits && length > 18)
        fail("%s is too large: numbers have at most 18 digits (desk help %s)", word, command->word);
    fail("%s is not a whole number: %s takes %s (desk help %s)", word[0] == '\0' ? "an empty word" : word, command->word, command->takes, command->word);
}

void check_operands(const Command *command, const char *const *words, size_t count)
{
    uint64_t number;

    for (size_t at = 0; !command->file && at < count && at < command->most; at++)
        if (!whole_number(slice_string(words[at]), &number))
            not_a_number(command, words[at]);
    if (count < command->least || count > command->most)
        fail("%s takes %s (desk help %s)", command->word, command->takes, command->word);
}

static void put_padded(Text *text, const char *one, const char *other, size_t width)
{
    size_t length = strlen(one) + strlen(other) + (other[0] != '\0');

    text_put(text, "  ");
    text_put(text, one);
    text_put(text, other[0] == '\0' ? "" : " ");
    text_put(text, other);
    for (; length < width; length++)
        text_byte(text, ' ');
}

static const char options_help[] =
    "options (before or after the other words; -- ends them):\n"
    "  --csv           rows as CSV (RFC 4180) with a first line of names\n"
    "  --header        rows with a first line of names\n"
    "  --names FILE    adds each part's name as a last field; FILE has lines PART NAME, in UTF-8\n";

static const char status_help[] =
    "A refusal prints one line, `refused`, number and place; standard error explains it.\n"
    "Status: 0 answer, 1 refusal, 2 trouble, such as wrong words or a file that cannot be read or replaced.\n";

void put_desk_help(Text *text)
{
    text_put(text, "usage: desk [OPTION...] FILE COMMAND [WORD...]\n"
                   "       desk help [COMMAND]\n\n"
                   "Carries out a command on the parts table in FILE, or on standard input if FILE is -.\n"
                   "Parts and table lines count from 0. FORMAT.md describes every text and output.\n\n");
    for (size_t at = 0; at < COMMANDS; at++) {
        put_padded(text, commands[at].word, commands[at].operands, 29);
        text_put(text, " ");
        text_put(text, commands[at].about);
        text_put(text, "\n");
    }
    text_put(text, "\n");
    text_put(text, options_help);
    text_put(text, "  --tree          bill: rows indented by level, with quantity and extended cost\n"
                   "  --report        letter: prints the parts that change, as compare does\n"
                   "  --write         reprice, strike, restore, append, letter: replaces FILE and prints no table\n"
                   "  -h, --help, --version\n\n"
                   "--write replaces a regular, writable file without further hard links, all at once. It keeps mode and group, and the\n"
                   "owner if you may give files away. It ends with 2 and leaves the file if that is not possible, or if the file has\n"
                   "changed since it was read. The status is 0 exactly if the file is the new one.\n\n");
    text_put(text, status_help);
    text_put(text, "\nexamples:\n");
    for (size_t at = 0; at < COMMANDS; at++) {
        text_put(text, "  desk ");
        text_put(text, commands[at].example);
        text_put(text, "\n");
    }
}

void put_command_help(Text *text, const Command *command)
{
    text_put(text, "usage: desk");
    text_put(text, command->options & WRITE ? " [--write]" : "");
    text_put(text, command->options & REPORT ? " [--report]" : "");
    text_put(text, command->options & TREE ? " [--tree]" : "");
    text_put(text, command->options & ROWS ? " [--csv|--header]" : "");
    text_put(text, command->options & NAMES ? " [--names FILE]" : "");
    text_put(text, " FILE ");
    text_put(text, command->word);
    text_put(text, command->operands[0] == '\0' ? "" : " ");
    text_put(text, command->operands);
    text_put(text, "\n\n`");
    text_put(text, command->word);
    text_put(text, "` ");
    text_put(text, command->about);
    text_put(text, ".\nIt takes ");
    text_put(text, command->takes);
    text_put(text, ".\n\nexample:\n  desk ");
    text_put(text, command->example);
    text_put(text, "\n");
}

void put_price_help(Text *text)
{
    text_put(text, "usage: price [OPTION...] [FILE]\n\n"
                   "Prices the parts table in FILE, or on standard input if FILE is - or is left out, and lists its parts:\n"
                   "part, state, figure, depth, line, pieces. FORMAT.md describes how a table is typed.\n\n");
    text_put(text, options_help);
    text_put(text, "  -h, --help, --version\n\n");
    text_put(text, status_help);
}
