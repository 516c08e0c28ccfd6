/* A table's text as lines of numbers. */
#ifndef FRONT_TABLE_H
#define FRONT_TABLE_H

#include "text.h"

enum { MOST_NEEDS = 16 };
typedef enum { COST, DAYS, GRADE } Measure;

typedef struct {
    uint64_t part, figure, needs[MOST_NEEDS];
    size_t count;
    bool struck;
} Line;

typedef struct {
    Measure measure;
    uint64_t parts, count;
    Line *lines;
} Table;

/* Reads a text that the proved programs have accepted. */
void read_table(Table *table, const Text *text);
/* How often a line needs the part at PLACE of its needed parts; 0 if an earlier place has that part. */
uint64_t times_needed(const Line *line, size_t place);
void free_table(Table *table);

#endif
