#include "cut.h"

#include <stdlib.h>

enum {
    ALL_EDGES = 2 * MAP_EDGES,
    CUTS = 2 * ALL_EDGES + 4 * MAP_EDGES * MAP_EDGES, /* the ends, and at most four for two edges */
    PIECES = 6 * VERTICES,                            /* a plane graph has fewer than 3 V edges; each may come from both maps */
};

/* A point at which an edge is cut, its ends included; edges of the second map are numbered on from MAP_EDGES. */
struct cut {
    struct point at;
    uint16_t edge, vertex;
};

struct piece {
    uint16_t lower, upper, edge;
};

static struct cut cuts[CUTS];
static int cut_count;

static void add_cut(struct point at, int edge)
{
    cuts[cut_count++] = (struct cut){ at, edge, 0 };
}

static int64_t gcd(int64_t a, int64_t b)
{
    while (b != 0) {
        int64_t rest = a % b;
        a = b;
        b = rest;
    }
    return a < 0 ? -a : a;
}

static struct point lowest(int64_t x, int64_t y, int64_t d)
{
    int64_t g = gcd(gcd(x, y), d);

    return (struct point){ x / g, y / g, d / g };
}

/* Whether lower <= p <= upper for the ends of a line. */
static bool on_stretch(const struct line *l, struct point p)
{
    struct point lower = { l->x, l->y, 1 }, upper = { l->x + l->dx, l->y + l->dy, 1 };

    return compare_points(&lower, &p) <= 0 && compare_points(&p, &upper) <= 0;
}

/* Edge `edge` along l is cut at the ends of m that lie on it; both are on one straight line. */
static void cut_at_ends(const struct line *l, int edge, const struct line *m)
{
    struct point lower = { m->x, m->y, 1 }, upper = { m->x + m->dx, m->y + m->dy, 1 };

    if (on_stretch(l, lower))
        add_cut(lower, edge);
    if (on_stretch(l, upper))
        add_cut(upper, edge);
}

static void cut_pair(const struct line *a, int j, const struct line *b, int k)
{
    if (boxes_apart(a, b))
        return;
    int64_t d = cross(a->dx, a->dy, b->dx, b->dy);
    int64_t s = cross(b->x - a->x, b->y - a->y, b->dx, b->dy); /* s / d is the parameter on a, t / d that on b */
    int64_t t = cross(b->x - a->x, b->y - a->y, a->dx, a->dy);
    if (d == 0) {
        if (t == 0) {
            cut_at_ends(a, j, b);
            cut_at_ends(b, k, a);
        }
        return;
    }
    if (d < 0) {
        d = -d;
        s = -s;
        t = -t;
    }
    if (s < 0 || s > d || t < 0 || t > d)
        return;
    struct point at = lowest(a->x * d + s * a->dx, a->y * d + s * a->dy, d);
    add_cut(at, j);
    add_cut(at, k);
}

static void collect_cuts(const struct net *a, const struct net *b)
{
    cut_count = 0;
    for (int j = 0; j < a->edges; j++)
        cut_at_ends(&a->line[j], j, &a->line[j]);
    for (int k = 0; k < b->edges; k++)
        cut_at_ends(&b->line[k], MAP_EDGES + k, &b->line[k]);
    for (int j = 0; j < a->edges; j++)
        for (int k = 0; k < b->edges; k++)
            cut_pair(&a->line[j], j, &b->line[k], MAP_EDGES + k);
}

static int by_point(const void *a, const void *b)
{
    return compare_points(&((const struct cut *)a)->at, &((const struct cut *)b)->at);
}

/* Numbers the points of the cuts in point order; false if there are more than room. */
static bool number_vertices(struct net *overlay, int room)
{
    qsort(cuts, cut_count, sizeof cuts[0], by_point);
    overlay->vertices = 0;
    for (int i = 0; i < cut_count; i++) {
        if (i == 0 || by_point(&cuts[i - 1], &cuts[i]) != 0) {
            if (overlay->vertices == room)
                return false;
            overlay->at[overlay->vertices++] = cuts[i].at;
        }
        cuts[i].vertex = overlay->vertices - 1;
    }
    return true;
}

/* The cuts stand by vertex, and along an edge vertex numbers rise: the piece up to a cut starts at the edge's cut before it. */
static int collect_pieces(struct piece *pieces)
{
    uint16_t reached[ALL_EDGES];
    int count = 0;

    for (int k = 0; k < ALL_EDGES; k++)
        reached[k] = NONE;
    for (int i = 0; i < cut_count; i++) {
        int k = cuts[i].edge, v = cuts[i].vertex;
        if (reached[k] != NONE && reached[k] != v)
            pieces[count++] = (struct piece){ reached[k], v, k };
        reached[k] = v;
    }
    return count;
}

static int by_ends(const void *a, const void *b)
{
    const struct piece *p = a, *q = b;

    if (p->lower != q->lower)
        return p->lower - q->lower;
    return p->upper != q->upper ? p->upper - q->upper : p->edge - q->edge;
}

/* The pieces in order, one that comes from both maps once; false if there are more than room. */
static bool store_edges(const struct map *maps, const struct piece *pieces, int count, int room, struct net *overlay,
                        struct source *sources)
{
    overlay->edges = 0;
    for (int i = 0; i < count; i++) {
        int map = pieces[i].edge / MAP_EDGES, k = pieces[i].edge % MAP_EDGES;
        bool again = i > 0 && pieces[i - 1].lower == pieces[i].lower && pieces[i - 1].upper == pieces[i].upper;

        if (!again) {
            if (overlay->edges == room)
                return false;
            int e = overlay->edges++;
            overlay->origin[2 * e] = pieces[i].lower;
            overlay->origin[2 * e + 1] = pieces[i].upper;
            overlay->line[e] = maps[map].net.line[k];
            sources[e] = (struct source){ { -1, -1 } };
        }
        sources[overlay->edges - 1].in[map] = k;
    }
    return true;
}

int cut_maps(const struct map *maps, int vertex_room, int edge_room, struct net *overlay, struct source *sources)
{
    static struct piece pieces[PIECES];

    collect_cuts(&maps[0].net, &maps[1].net);
    if (!number_vertices(overlay, vertex_room))
        return 1;
    int count = collect_pieces(pieces);
    qsort(pieces, count, sizeof pieces[0], by_ends);
    return store_edges(maps, pieces, count, edge_room, overlay, sources) ? 0 : 2;
}
