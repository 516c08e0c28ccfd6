/* A table, or the make-up of a part, as a graph for Graphviz. */
#ifndef FRONT_GRAPH_H
#define FRONT_GRAPH_H

#include "names.h"

/* Adds the graph of the table TEXT with the list LIST; if BILL is not NULL, only what is in that bill, with the count of each part. NAMES may be NULL. */
void put_graph(Text *out, const Text *text, const Text *list, const Text *bill, const Names *names);

#endif
