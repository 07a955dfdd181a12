/* Map files: reading one and checking it by rules 1 to 10. */
#ifndef MAP_H
#define MAP_H

#include "net.h"
#include "plain.h"

struct map {
    struct net net;
    uint16_t label[2 * MAP_EDGES];
};

static inline bool beyond(int64_t n)
{
    return n < -REACH || n > REACH;
}

/* Rules 1 to 4: the number of the first that a file breaks, or 0. */
int form_fault(const uint8_t *file, size_t length);

/* The answer's number is 0 if the file passes, and the map is filled; map is 0 in the answer. */
struct plain_answer load_map(const uint8_t *file, size_t length, struct map *map);

#endif
