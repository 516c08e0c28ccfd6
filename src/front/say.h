/* Messages on standard error, each after the program's name. */
#ifndef FRONT_SAY_H
#define FRONT_SAY_H

#if defined __GNUC__
#define PRINTS __attribute__((format(printf, 1, 2)))
#define ENDS __attribute__((noreturn))
#else
#define PRINTS
#define ENDS
#endif

enum { ANSWERED = 0, REFUSED = 1, TROUBLE = 2 };

/* "price" or "desk". */
extern const char *program_name;

PRINTS void say(const char *format, ...);

/* Says it and ends with TROUBLE. */
PRINTS ENDS void fail(const char *format, ...);

#endif
