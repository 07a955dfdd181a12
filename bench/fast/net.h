/* Followers: of a map, and of the overlay. */
#ifndef FAST_NET_H
#define FAST_NET_H

#include "../plain/geometry.h"
#include "../plain/limits.h"

/* The way that a half-edge takes from its origin. */
struct way {
    int32_t dx, dy;
};

/* Fills next with the follower of each half-edge, and last with the half-edge of greatest angle out of each vertex that has one. */
void fast_followers(const uint16_t *origin, const struct way *ways, int vertices, int edges, uint16_t *next, uint16_t *last);

#endif
