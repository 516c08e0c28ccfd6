/* Asks the proved programs `parts` and `listing`. */
#ifndef FRONT_CHILD_H
#define FRONT_CHILD_H

#include "streams.h"

/* What the program printed, and whether a refusal in it is that of the second file. */
typedef struct {
    Text output;
    bool second_refused;
} Answer;

/* Runs PROGRAM, a name in the folder of the proved programs, with WORDS, which end with NULL, and with INPUT as its standard input. If SECOND is not
 * NULL, the program gets one argument more, which names a file with that text. Fails if the program can't be run, ends badly or reports trouble. */
void ask(const char *program, const char *const *words, const Text *input, const Text *second, Answer *answer);

#endif
