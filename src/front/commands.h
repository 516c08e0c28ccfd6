/* The commands of `desk`: their words and their help. */
#ifndef FRONT_COMMANDS_H
#define FRONT_COMMANDS_H

#include "text.h"

/* Options that a command may have. */
enum { WRITE = 1, ROWS = 2, NAMES = 4, TREE = 8, REPORT = 16 };

typedef enum { PRICE, BILL, USES, REPRICE, STRIKE, RESTORE, APPEND, CHECK, CHECK_ORDER, COMPARE, REPLAY, MEAN, LETTER, GRAPH } Name;

typedef struct {
    Name name;
    const char *word;
    /* as the help shows them, and in a sentence after "WORD takes" */
    const char *operands, *takes;
    /* how many operands; if FILE, the one operand names a file, else they are numbers */
    size_t least, most;
    bool file;
    int options;
    const char *about, *example;
} Command;

/* The command of that word, or NULL. */
const Command *command_of(const char *word);

/* Says that there is no such command, with the nearest one, and ends. */
void unknown_command(const char *word);

/* Ends with a message unless WORDS, COUNT of them, are what the command takes. */
void check_operands(const Command *command, const char *const *words, size_t count);

/* The help of desk, and of one command. */
void put_desk_help(Text *text);
void put_command_help(Text *text, const Command *command);
void put_price_help(Text *text);

#endif
