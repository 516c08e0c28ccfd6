/* price: the list of a table's parts. */
#include <stdlib.h>

#include "child.h"
#include "commands.h"
#include "refusal.h"
#include "rows.h"
#include "say.h"
#include "words.h"

static void emit_help(void)
{
    Text help = {0};

    put_price_help(&help);
    emit(slice_of(&help));
    text_free(&help);
}

static int list(const Options *options)
{
    static const char *const none[] = {NULL};
    Source table = {0};
    Answer answer;
    Refusal refusal;
    Names names = {0};
    Style style = {options->csv, options->header, NULL};
    Text out = {0};
    bool refused;

    read_source(&table, options->count == 0 ? "-" : options->words[0], MOST_TEXT, true);
    ask("listing", none, &table.text, NULL, &answer);
    refused = read_refusal(&answer.output, &refusal);
    if (refused) {
        emit(slice_of(&answer.output));
        explain(&refusal, &(Asked){.table = &table});
    } else {
        if (options->names != NULL) {
            read_names(&names, options->names, parts_of(&table.text));
            style.names = &names;
        }
        put_rows(&out, PRICE, &answer.output, &style);
        emit(slice_of(&out));
    }
    text_free(&out);
    text_free(&table.text);
    text_free(&answer.output);
    free_names(&names);
    return refused ? REFUSED : ANSWERED;
}

int main(int count, char **words)
{
    Options options;
    int status = ANSWERED;

    program_name = "price";
    open_streams();
    read_options(&options, count, words, false);
    if (options.help)
        emit_help();
    else if (options.version)
        emit_version();
    else if (options.count > 1)
        fail("price takes one table at a time (price --help)");
    else
        status = list(&options);
    free(options.words);
    return status;
}
