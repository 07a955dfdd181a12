/* Cutting: the overlay's vertices in point order, and its edges, the pieces between them. */
#ifndef FAST_CUT_H
#define FAST_CUT_H

#include "map.h"

/* Half-edge 2k runs from the lower vertex of edge k to the upper one. A source is an edge number + 1 in either map, or 0. */
struct fast_net {
    int vertices, edges;
    struct point at[VERTICES];
    struct line line[EDGES];
    uint16_t origin[2 * EDGES];
    uint16_t source[EDGES][2];
};

/* Answers 0, or 1 or 2 where vertices or edges are more than the room for them, which is at most VERTICES and EDGES. */
int fast_cut(const struct fast_map *maps, int vertex_room, int edge_room, struct fast_net *net);

#endif
