#include "bytes.h"
#include "map.h"

static struct plain_answer refuse(int number, int place)
{
    return (struct plain_answer){ .number = number, .place = place };
}

static int i16_at(const uint8_t *file, size_t at)
{
    return (int16_t)u16_at(file, at);
}

int form_fault(const uint8_t *file, size_t length)
{
    if (length < 9 || file[0] != 'Z' || file[1] != 'M' || file[2] != 'P')
        return 1;
    if (u16_at(file, 3) != 1)
        return 2;
    int vertices = u16_at(file, 5), edges = u16_at(file, 7);
    if (vertices > MAP_VERTICES || edges > MAP_EDGES)
        return 3;
    return length != 9 + 4 * (size_t)vertices + 8 * (size_t)edges ? 4 : 0;
}

/* Rules 5 and 6. */
static struct plain_answer load_vertices(const uint8_t *file, struct net *n)
{
    n->vertices = u16_at(file, 5);
    for (int v = 0; v < n->vertices; v++)
        n->at[v] = (struct point){ i16_at(file, 9 + 4 * v), i16_at(file, 11 + 4 * v), 1 };
    for (int v = 0; v < n->vertices; v++)
        if (beyond(n->at[v].x) || beyond(n->at[v].y))
            return refuse(5, v);
    for (int v = 0; v < n->vertices; v++)
        for (int u = 0; u < v; u++)
            if (n->at[u].x == n->at[v].x && n->at[u].y == n->at[v].y)
                return refuse(6, v);
    return refuse(0, 0);
}

static struct line line_between(const struct point *a, const struct point *b)
{
    if (compare_points(a, b) > 0)
        return line_between(b, a);
    return (struct line){ a->x, a->y, b->x - a->x, b->y - a->y };
}

/* Rule 7. */
static struct plain_answer load_edges(const uint8_t *file, struct map *map)
{
    struct net *n = &map->net;

    n->edges = u16_at(file, 7);
    for (int k = 0; k < n->edges; k++) {
        size_t at = 9 + 4 * n->vertices + 8 * k;
        int from = u16_at(file, at), to = u16_at(file, at + 2);

        if (from >= n->vertices || to >= n->vertices || from == to)
            return refuse(7, k);
        n->origin[2 * k] = from;
        n->origin[2 * k + 1] = to;
        n->line[k] = line_between(&n->at[from], &n->at[to]);
        map->label[2 * k] = u16_at(file, at + 4);
        map->label[2 * k + 1] = u16_at(file, at + 6);
    }
    return refuse(0, 0);
}

static bool has_end(const struct net *n, int k, int v)
{
    return n->origin[2 * k] == v || n->origin[2 * k + 1] == v;
}

/* Whether a point on the line of edge k lies on the edge, its ends included. */
static bool between(const struct net *n, int k, const struct point *p)
{
    const struct line *l = &n->line[k];
    struct point lower = { l->x, l->y, 1 }, upper = { l->x + l->dx, l->y + l->dy, 1 };

    return compare_points(&lower, p) <= 0 && compare_points(p, &upper) <= 0;
}

/* Whether an end of edge j that is not an end of edge k lies on edge k. */
static bool end_on(const struct net *n, int j, int k)
{
    for (int h = 2 * j; h < 2 * j + 2; h++) {
        int v = n->origin[h];
        if (!has_end(n, k, v) && left_of(&n->line[k], &n->at[v]) == 0 && between(n, k, &n->at[v]))
            return true;
    }
    return false;
}

static int side(const struct line *l, const struct point *p)
{
    return sign(left_of(l, p));
}

/* Whether two edges share a point that is not an end of both. */
static bool clash(const struct net *n, int j, int k)
{
    const struct line *a = &n->line[j], *b = &n->line[k];

    if (boxes_apart(a, b))
        return false;
    if (has_end(n, k, n->origin[2 * j]) && has_end(n, k, n->origin[2 * j + 1]))
        return true;
    if (end_on(n, j, k) || end_on(n, k, j))
        return true;
    const struct point *a0 = &n->at[n->origin[2 * j]], *a1 = &n->at[n->origin[2 * j + 1]];
    const struct point *b0 = &n->at[n->origin[2 * k]], *b1 = &n->at[n->origin[2 * k + 1]];
    return side(a, b0) * side(a, b1) < 0 && side(b, a0) * side(b, a1) < 0;
}

/* Rule 8. */
static struct plain_answer check_clashes(const struct net *n)
{
    for (int j = 0; j < n->edges; j++)
        for (int k = j + 1; k < n->edges; k++)
            if (clash(n, j, k))
                return refuse(8, j);
    return refuse(0, 0);
}

/* Rule 9. */
static struct plain_answer check_lone(const struct net *n)
{
    bool has_edge[MAP_VERTICES] = { false };

    for (int h = 0; h < 2 * n->edges; h++)
        has_edge[n->origin[h]] = true;
    for (int v = 0; v < n->vertices; v++)
        if (!has_edge[v])
            return refuse(9, v);
    return refuse(0, 0);
}

/* Whether h makes its walk a hole walk and its label is not that of the half-edge seen west. */
static bool hole_disagrees(const struct map *map, int h)
{
    const struct net *n = &map->net;
    int v = n->smallest[n->lead[h]];

    if (n->last[v] != h)
        return false;
    int seen = look_west(n, &n->at[v], 0, 0);
    return map->label[h] != (seen < 0 ? 0 : map->label[seen]);
}

/* Rule 10. */
static struct plain_answer check_labels(const struct map *map)
{
    for (int h = 0; h < 2 * map->net.edges; h++)
        if (map->label[h] != map->label[map->net.next[h]] || hole_disagrees(map, h))
            return refuse(10, h);
    return refuse(0, 0);
}

struct plain_answer load_map(const uint8_t *file, size_t length, struct map *map)
{
    struct plain_answer fault = refuse(form_fault(file, length), 0);

    if (fault.number == 0)
        fault = load_vertices(file, &map->net);
    if (fault.number == 0)
        fault = load_edges(file, map);
    if (fault.number == 0)
        fault = check_clashes(&map->net);
    if (fault.number == 0)
        fault = check_lone(&map->net);
    if (fault.number == 0) {
        link_net(&map->net);
        fault = check_labels(map);
    }
    return fault;
}
