/* Cutting: where the edges of two maps are cut, the overlay's vertices in point order, and the pieces between them. */
#ifndef CUT_H
#define CUT_H

#include "map.h"

/* Edge numbers in the two maps, or -1. */
struct source {
    int in[2];
};

/* Fills the vertices and edges of the overlay's net, and their sources. Answers 0, or 1 or 2 where vertices or edges are
 * more than the room for them, which is at most VERTICES and EDGES. */
int cut_maps(const struct map *maps, int vertex_room, int edge_room, struct net *overlay, struct source *sources);

#endif
