/* Where the edges of two maps meet. Each edge remembers the points at which it is cut. */
#ifndef FAST_MEET_H
#define FAST_MEET_H

#include "map.h"

enum {
    CORNERS = 2 * MAP_VERTICES,
    CROSSINGS = VERTICES + 1,
    /* The ends of all edges; two for each crossing; one for each half-edge that starts inside an edge of the other map. */
    CUTS = 4 * MAP_EDGES + 2 * CROSSINGS + 4 * MAP_EDGES,
};

/* A point is known by its number: a corner of the first map, a corner of the second from MAP_VERTICES on, a crossing inside two edges from CORNERS on. An edge of the
 * second map is numbered from MAP_EDGES on. */
struct cut {
    uint16_t point, edge;
};

struct meetings {
    int crossings, cuts, most; /* crossings past `most` are not kept, but for one */
    struct point crossing[CROSSINGS];
    struct cut cut[CUTS];
};

void fast_meet(const struct fast_map *maps, int most, struct meetings *found);

#endif
