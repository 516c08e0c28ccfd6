/* A bill as a tree. */
#ifndef FRONT_TREE_H
#define FRONT_TREE_H

#include "rows.h"

/* Adds the bill in ANSWER, which is of the table TEXT, with a row for each part of each level: quantity, figure and, in cost, extended cost. */
void put_tree(Text *out, const Text *text, const Text *answer, const Style *style);

#endif
