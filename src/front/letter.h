/* A price letter: a line LINE FIGURE for each own figure that changes. */
#ifndef FRONT_LETTER_H
#define FRONT_LETTER_H

#include "child.h"

/* Carries out the letter, change after change, on the text of TABLE. ANSWER is the text with all of them, or that of the first refusal, with LINE its line in
 * the letter. Ends with TROUBLE if the letter is not written as letters are. */
void carry_out(const Source *letter, const Source *table, Answer *answer, uint64_t *line);

#endif
