#include "meet.h"

static uint16_t content[MAP_EDGES]; /* the greatest common divisor of dx and dy, of the first map's edges */

static uint32_t gcd(uint32_t a, uint32_t b)
{
    while (b != 0) {
        uint32_t rest = a % b;
        a = b;
        b = rest;
    }
    return a;
}

static void add_cut(struct meetings *found, int point, int edge)
{
    found->cut[found->cuts++] = (struct cut){ point, edge };
}

/* The point at s / d of the way along a line, in lowest terms: what divides X, Y and D divides D and s times the line's content. */
static struct point lowest(const struct line *l, int64_t s, int64_t d, int divisor)
{
    int64_t x = l->x * d + s * l->dx, y = l->y * d + s * l->dy;
    int64_t g = gcd(d, (uint64_t)(s * divisor) % (uint64_t)d);

    return g == 1 ? (struct point){ x, y, d } : (struct point){ x / g, y / g, d / g };
}

/* Two edges on one line: each is cut at the ends of the other inside it. */
static void meet_along(const struct fast_map *a, int j, const struct fast_map *b, int k, struct meetings *found)
{
    for (int h = 0; h < 2; h++) {
        int p = a->origin[2 * j + h], q = b->origin[2 * k + h];

        if (b->lower[k] < a->key[p] && a->key[p] < b->upper[k])
            add_cut(found, p, MAP_EDGES + k);
        if (a->lower[j] < b->key[q] && b->key[q] < a->upper[j])
            add_cut(found, MAP_VERTICES + q, j);
    }
}

/* An end of an edge: the lower one, or the upper. */
static int end_of(const struct fast_map *map, int k, bool lower)
{
    return map->origin[lower ? map->down[k] ^ 1 : map->down[k]];
}

/* Edge j of the first map and edge k of the second. A point that is an end of either is a corner; any other is met once only, for by rule 8 no other edge of either map goes through it. */
static void meet(const struct fast_map *a, int j, const struct fast_map *b, int k, struct meetings *found)
{
    const struct line *l = &a->line[j], *m = &b->line[k];
    int64_t d = cross(l->dx, l->dy, m->dx, m->dy);
    int64_t s = cross(m->x - l->x, m->y - l->y, m->dx, m->dy); /* s / d is the parameter on l, t / d that on m */
    int64_t t = cross(m->x - l->x, m->y - l->y, l->dx, l->dy);

    if (d == 0) {
        if (t == 0)
            meet_along(a, j, b, k, found);
        return;
    }
    if (d < 0)
        d = -d, s = -s, t = -t;
    if (s < 0 || s > d || t < 0 || t > d)
        return;
    bool end_of_l = s == 0 || s == d, end_of_m = t == 0 || t == d;
    if (end_of_l && !end_of_m)
        add_cut(found, end_of(a, j, s == 0), MAP_EDGES + k);
    if (end_of_m && !end_of_l)
        add_cut(found, MAP_VERTICES + end_of(b, k, t == 0), j);
    if (end_of_l || end_of_m || found->crossings > found->most)
        return;
    add_cut(found, CORNERS + found->crossings, j);
    add_cut(found, CORNERS + found->crossings, MAP_EDGES + k);
    found->crossing[found->crossings++] = lowest(l, s, d, content[j]);
}

/* Edge k of a map meets the edges of the other that still stand; answers how many of them stand on. */
static int pass(const struct fast_map *maps, int map, int k, struct standing *others, int count, struct meetings *found)
{
    const struct fast_map *mine = &maps[map];
    int kept = 0, west = mine->west[k], east = mine->east[k];
    uint32_t lower = mine->lower[k];

    for (int i = 0; i < count; i++) {
        struct standing s = others[i];

        others[kept] = s;
        kept += s.upper >= lower;
        if (s.upper < lower || s.east < west || east < s.west)
            continue;
        if (map == 0)
            meet(&maps[0], k, &maps[1], s.edge, found);
        else
            meet(&maps[0], s.edge, &maps[1], k, found);
    }
    return kept;
}

/* The edges of both maps by lower end. */
void fast_meet(const struct fast_map *maps, int most, struct meetings *found)
{
    struct standing still[2][MAP_EDGES];
    int count[2] = { 0, 0 }, at[2] = { 0, 0 };

    found->crossings = found->cuts = 0;
    found->most = most;
    for (int k = 0; k < maps[0].edges; k++) {
        const struct line *l = &maps[0].line[k];
        content[k] = gcd(l->dx < 0 ? -l->dx : l->dx, l->dy);
    }
    while (at[0] < maps[0].edges || at[1] < maps[1].edges) {
        int map = at[0] == maps[0].edges;

        if (at[0] < maps[0].edges && at[1] < maps[1].edges)
            map = maps[0].lower[maps[0].by_lower[at[0]]] > maps[1].lower[maps[1].by_lower[at[1]]];
        int k = maps[map].by_lower[at[map]++];
        count[!map] = pass(maps, map, k, still[!map], count[!map], found);
        still[map][count[map]++] = stand(&maps[map], k);
    }
}
