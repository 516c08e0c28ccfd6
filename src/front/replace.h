/* Replaces a table's file: all at once, for its readers and writers, and never over somebody else's change. */
#ifndef FRONT_REPLACE_H
#define FRONT_REPLACE_H

#include "streams.h"

/* A file that is to be replaced: the name given, its last part, and the open file and folder. */
typedef struct {
    const char *name;
    char *path, *base;
    int file, folder;
} Target;

/* Opens the file NAME, or what the link NAME leads to, and reads it. Ends with TROUBLE unless it is a regular, writable file with one name. */
void open_target(Target *target, const char *name, Source *source);

/* Puts NEW in the place of the file if it still has the text OLD. Returns if the file is the new one; else the file is left, nothing lies beside it, and
 * the program ends with TROUBLE, or by a signal that it was sent. */
void replace_target(Target *target, Slice old, Slice new);

void free_target(Target *target);

#endif
