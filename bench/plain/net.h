/* A net: points and edges, followers and walks; a map and the overlay are both nets. */
#ifndef NET_H
#define NET_H

#include "geometry.h"
#include "limits.h"

/* Half-edge 2k runs along edge k one way, 2k + 1 back. */
struct net {
    int vertices, edges;
    struct point at[VERTICES];
    struct line line[EDGES];
    uint16_t origin[2 * EDGES];
    uint16_t next[2 * EDGES];     /* follower */
    uint16_t last[VERTICES];      /* half-edge of greatest angle out of a vertex */
    uint16_t lead[2 * EDGES];     /* least half-edge of the walk */
    uint16_t smallest[2 * EDGES]; /* smallest vertex of a walk, at its least half-edge */
};

static inline int twin(int h)
{
    return h ^ 1;
}

/* The half-edge that makes the walk of least half-edge h a hole walk, if it is one. */
static inline bool is_hole(const struct net *n, int h)
{
    return n->lead[n->last[n->smallest[h]]] == h;
}

/* Fills next, last, lead and smallest. Every vertex has an edge. */
void link_net(struct net *n);

/* The half-edge seen looking west from p along the direction (dx, dy), or with dx = dy = 0 strictly west; -1 for the outside. */
int look_west(const struct net *n, const struct point *p, int64_t dx, int64_t dy);

#endif
