/* Who may read and write a file. */
#ifndef FRONT_ACCESS_H
#define FRONT_ACCESS_H

#include <stdbool.h>

/* Gives the file NEW owner, group, mode and access list of the file OLD; if the owner can't be given, at least the rest. False with errno set if that
 * can't be done. */
bool keep_access(int old, int new);

#endif
