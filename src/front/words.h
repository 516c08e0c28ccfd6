/* Options and words of a command line. */
#ifndef FRONT_WORDS_H
#define FRONT_WORDS_H

#include "text.h"

typedef struct {
    bool write, csv, header, tree, report, help, version;
    const char *names;
    /* the words that are no options */
    const char **words;
    size_t count;
} Options;

/* Reads the command line. DESK says whether the options of `desk` are permitted, or those of `price` alone. */
void read_options(Options *options, int count, char **given, bool desk);

/* Prints the version. */
void emit_version(void);

#endif
