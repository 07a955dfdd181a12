/* Map files: reading one and checking it by rules 1 to 10. */
#ifndef FAST_MAP_H
#define FAST_MAP_H

#include "../plain/geometry.h"
#include "../plain/limits.h"
#include "../plain/plain.h"

/* An edge's half-edges are 2k and 2k + 1. */
struct fast_map {
    int vertices, edges;
    struct point at[MAP_VERTICES];
    uint32_t key[MAP_VERTICES]; /* a vertex as one number: their order is point order */
    struct line line[MAP_EDGES];
    uint16_t origin[2 * MAP_EDGES], label[2 * MAP_EDGES];
    uint16_t down[MAP_EDGES]; /* the half-edge with the east at its left */
    uint32_t lower[MAP_EDGES], upper[MAP_EDGES]; /* the keys of an edge's ends */
    int16_t west[MAP_EDGES], east[MAP_EDGES];
    uint16_t by_lower[MAP_EDGES]; /* the edges in the order of their lower ends */
};

/* An edge that stands at the height reached: edges come by lower end, and one is dropped once its upper end is before the lower end of another. */
struct standing {
    uint32_t upper;
    int16_t west, east;
    uint16_t edge;
};

static inline struct standing stand(const struct fast_map *map, int k)
{
    return (struct standing){ map->upper[k], map->west[k], map->east[k], k };
}

/* The answer's number is 0 if the file passes, and the map is filled; map is 0 in the answer. */
struct plain_answer fast_load(const uint8_t *file, size_t length, struct fast_map *map);

/* Rules 8 to 10 of a map that has passed the others. */
struct plain_answer fast_check(const struct fast_map *map);

/* The label seen looking west from p along the direction (dx, dy), or with dx = dy = 0 strictly west; 0 for the outside. */
int fast_label_west(const struct fast_map *map, const struct point *p, int64_t dx, int64_t dy);

#endif
