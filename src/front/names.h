/* Names of parts: decoration that changes no figure. */
#ifndef FRONT_NAMES_H
#define FRONT_NAMES_H

#include "streams.h"

typedef struct {
    Source source;
    /* of each part its name, empty if it has none, and the line that gives it */
    Slice *names;
    uint64_t *lines;
    uint64_t parts;
} Names;

/* Reads the file: lines PART NAME, in UTF-8. Ends with TROUBLE at the first line that is wrong. PARTS is the number of parts that are known. */
void read_names(Names *names, const char *file, uint64_t parts);
Slice name_of(const Names *names, uint64_t part);
void free_names(Names *names);

#endif
