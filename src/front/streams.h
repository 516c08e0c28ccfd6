/* Standard input and output, signals, and reading files. */
#ifndef FRONT_STREAMS_H
#define FRONT_STREAMS_H

#include "text.h"

/* One byte more than `parts` and `listing` take, so that they refuse a longer text by 17. */
enum { MOST_TEXT = 65536, MOST_NAMES = 1048576 };

/* A text, the name under which messages speak of it, and whether it is standard input. */
typedef struct {
    const char *name;
    Text text;
    bool standard;
} Source;

/* Fills closed standard descriptors, so that no file takes their numbers, and ignores SIGPIPE and SIGXFSZ: a write that fails is seen by its result. */
void open_streams(void);

/* For a child before it runs another program: the signals as this program found them. */
void restore_signals(void);

/* Appends what DESCRIPTOR has, up to MOST bytes in all; false with errno set if a read fails. */
bool read_all(int descriptor, Text *text, size_t most);

/* Writes everything; false with errno set if a write fails. */
bool write_all(int descriptor, Slice slice);

/* Reads the file NAME, or standard input if NAME is "-" and DASH says so. Fails if it can't. */
void read_source(Source *source, const char *name, size_t most, bool dash);

/* Says why the file NAME can't be opened or read, by errno, and ends. */
void cannot_read(const char *name);

/* Writes an answer to standard output. If it can't be written whole, a file loses what it took of it, and the program ends with TROUBLE; a pipe
 * without a reader ends it by SIGPIPE. */
void emit(Slice slice);

#endif
