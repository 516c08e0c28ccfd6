#include "words.h"

#include <string.h>

#include "say.h"
#include "streams.h"

#ifndef TOZBIERDU_VERSION_STRING
#error "TOZBIERDU_VERSION_STRING comes from the file VERSION"
#endif

/* A word that begins with - and is neither - itself nor a negative number. */
static bool is_option(const char *word)
{
    return word[0] == '-' && word[1] != '\0' && (word[1] < '0' || word[1] > '9');
}

/* The flag of an option without a value, or NULL. */
static bool *flag_of(Options *options, const char *word, bool desk)
{
    if (strcmp(word, "--csv") == 0)
        return &options->csv;
    if (strcmp(word, "--header") == 0)
        return &options->header;
    if (strcmp(word, "--help") == 0 || strcmp(word, "-h") == 0)
        return &options->help;
    if (strcmp(word, "--version") == 0)
        return &options->version;
    if (desk && strcmp(word, "--write") == 0)
        return &options->write;
    if (desk && strcmp(word, "--tree") == 0)
        return &options->tree;
    if (desk && strcmp(word, "--report") == 0)
        return &options->report;
    return NULL;
}

void read_options(Options *options, int count, char **given, bool desk)
{
    bool ended = false;

    *options = (Options){.words = zeroed((size_t)count + 1, sizeof *options->words)};
    for (int at = 1; at < count; at++) {
        const char *word = given[at];
        bool *flag = flag_of(options, word, desk);

        if (ended || !is_option(word)) {
            options->words[options->count++] = word;
        } else if (strcmp(word, "--") == 0) {
            ended = true;
        } else if (flag != NULL) {
            *flag = true;
        } else if (strncmp(word, "--names=", 8) == 0) {
            options->names = word + 8;
        } else if (strcmp(word, "--names") != 0) {
            fail("unknown option: %s (%s --help lists all)", word, program_name);
        } else {
            if (at + 1 == count)
                fail("--names takes a file (%s --help)", program_name);
            options->names = given[++at];
        }
    }
}

void emit_version(void)
{
    Text text = {0};

    text_put(&text, program_name);
    text_put(&text, " (tozbierdu) " TOZBIERDU_VERSION_STRING "\n");
    emit(slice_of(&text));
    text_free(&text);
}
