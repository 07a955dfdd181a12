#include <string.h>

#include "map.h"
#include "net.h"

static struct plain_answer refuse(int number, int place)
{
    return (struct plain_answer){ .number = number, .place = place };
}

/* Whether both numbers are above 0, or both below. */
static bool one_side(int64_t a, int64_t b)
{
    return (a > 0 && b > 0) || (a < 0 && b < 0);
}

/* Whether two edges with a common end share another point: they have both ends in common, or lie to the same side of it on one line. */
static bool clash_at_end(const struct fast_map *map, int j, int k)
{
    const struct line *a = &map->line[j], *b = &map->line[k];

    if (map->lower[j] == map->lower[k] && map->upper[j] == map->upper[k])
        return true;
    if (cross(a->dx, a->dy, b->dx, b->dy) != 0)
        return false;
    return map->lower[j] == map->lower[k] || map->upper[j] == map->upper[k];
}

/* Whether two edges share a point that is not an end of both. */
static bool clash(const struct fast_map *map, int j, int k)
{
    const struct line *a = &map->line[j], *b = &map->line[k];

    if (map->lower[j] == map->lower[k] || map->upper[j] == map->upper[k] || map->lower[j] == map->upper[k] || map->upper[j] == map->lower[k])
        return clash_at_end(map, j, k);
    int64_t turn = cross(a->dx, a->dy, b->dx, b->dy);
    int64_t low = cross(a->dx, a->dy, b->x - a->x, b->y - a->y), high = low + turn; /* b's ends beside a */
    if (one_side(low, high))
        return false;
    int64_t from = cross(b->dx, b->dy, a->x - b->x, a->y - b->y), to = from - turn; /* a's ends beside b */
    if (one_side(from, to))
        return false;
    if (low != 0 || high != 0)
        return true;
    return map->lower[j] < map->upper[k] && map->lower[k] < map->upper[j];
}

/* Whether some two edges clash: each against those that still stand, by boxes first. */
static bool some_clash(const struct fast_map *map)
{
    struct standing still[MAP_EDGES];
    int count = 0;

    for (int i = 0; i < map->edges; i++) {
        int k = map->by_lower[i], kept = 0, west = map->west[k], east = map->east[k];
        uint32_t lower = map->lower[k];

        for (int j = 0; j < count; j++) {
            struct standing s = still[j];

            still[kept] = s;
            kept += s.upper >= lower;
            if (s.upper >= lower && s.east >= west && east >= s.west && clash(map, k, s.edge))
                return true;
        }
        count = kept;
        still[count++] = stand(map, k);
    }
    return false;
}

/* Rule 8. The least edge is looked for only where there is one. */
static struct plain_answer check_clashes(const struct fast_map *map)
{
    if (!some_clash(map))
        return refuse(0, 0);
    for (int j = 0; j < map->edges; j++)
        for (int k = j + 1; k < map->edges; k++)
            if (clash(map, j, k))
                return refuse(8, j);
    return refuse(0, 0);
}

/* Rule 9. */
static struct plain_answer check_lone(const struct fast_map *map)
{
    bool has_edge[MAP_VERTICES] = { false };

    for (int h = 0; h < 2 * map->edges; h++)
        has_edge[map->origin[h]] = true;
    for (int v = 0; v < map->vertices; v++)
        if (!has_edge[v])
            return refuse(9, v);
    return refuse(0, 0);
}

/* For each half-edge the smallest vertex of its walk. */
static void find_smallest(const struct fast_map *map, const uint16_t *next, uint16_t *smallest)
{
    memset(smallest, 255, 2 * map->edges * sizeof smallest[0]);
    for (int h = 0; h < 2 * map->edges; h++) {
        if (smallest[h] != NONE)
            continue;
        int low = map->origin[h];
        for (int g = next[h]; g != h; g = next[g])
            if (map->key[map->origin[g]] < map->key[low])
                low = map->origin[g];
        for (int g = h; smallest[g] == NONE; g = next[g])
            smallest[g] = low;
    }
}

/* Rule 10. */
static struct plain_answer check_labels(const struct fast_map *map)
{
    struct way ways[2 * MAP_EDGES];
    uint16_t next[2 * MAP_EDGES], last[MAP_VERTICES], smallest[2 * MAP_EDGES];

    for (int h = 0; h < 2 * map->edges; h++) {
        const struct line *l = &map->line[h / 2];
        int to = map->down[h / 2] == h ? -1 : 1;

        ways[h] = (struct way){ to * l->dx, to * l->dy };
    }
    fast_followers(map->origin, ways, map->vertices, map->edges, next, last);
    find_smallest(map, next, smallest);
    for (int h = 0; h < 2 * map->edges; h++) {
        int v = smallest[h];

        if (map->label[h] != map->label[next[h]])
            return refuse(10, h);
        if (last[v] == h && map->label[h] != fast_label_west(map, &map->at[v], 0, 0))
            return refuse(10, h);
    }
    return refuse(0, 0);
}

struct plain_answer fast_check(const struct fast_map *map)
{
    struct plain_answer fault = check_clashes(map);

    if (fault.number == 0)
        fault = check_lone(map);
    return fault.number == 0 ? check_labels(map) : fault;
}
