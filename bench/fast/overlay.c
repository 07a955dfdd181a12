#include <string.h>

#include "cut.h"
#include "fast.h"
#include "net.h"

/* Walks are numbered by their least half-edges. While a hole walk's face is not known, `sees` says which walk it sees to the west, or NONE. */
struct walks {
    int count, faces;
    uint16_t next[2 * EDGES], of[2 * EDGES];
    uint16_t least[2 * EDGES], smallest[2 * EDGES], face[2 * EDGES], sees[2 * EDGES];
    uint16_t outer[2 * EDGES], holes[2 * EDGES + 1]; /* by face; face 0 is the outside */
};

enum { HOLE = NONE - 1 };

static int smaller(int a, size_t b)
{
    return (size_t)a < b ? a : (int)b;
}

/* The walk of each half-edge, and of each walk its least half-edge and its smallest vertex. */
static void find_walks(const struct fast_net *net, struct walks *w)
{
    w->count = 0;
    memset(w->of, 255, 2 * net->edges * sizeof w->of[0]);
    for (int h = 0; h < 2 * net->edges; h++) {
        if (w->of[h] != NONE)
            continue;
        int smallest = net->origin[h], g = h;
        do {
            w->of[g] = w->count;
            g = w->next[g];
            smallest = net->origin[g] < smallest ? net->origin[g] : smallest;
        } while (g != h);
        w->least[w->count] = h;
        w->smallest[w->count++] = smallest;
    }
}

/* The edge seen strictly west of vertex v, or -1. The edges stand by lower vertex, and those at the height of v start not above it and end above it, in point order too. */
static int look_west(const struct fast_net *net, int v)
{
    const struct point *p = &net->at[v];
    int best = -1;
    int64_t best_left = 0;

    for (int k = 0; k < net->edges && net->origin[2 * k] <= v; k++) {
        if (net->origin[2 * k + 1] <= v)
            continue;
        const struct line *l = &net->line[k];
        int64_t left = left_of(l, p);
        if (left >= 0)
            continue;
        if (best >= 0) {
            const struct line *b = &net->line[best];
            int nearer = compare_products(left, b->dy, best_left, l->dy);
            if (nearer < 0 || (nearer == 0 && cross(l->dx, l->dy, b->dx, b->dy) <= 0))
                continue;
        }
        best = k;
        best_left = left;
    }
    return best;
}

/* Each outer walk makes a face; a hole walk holds the greatest angle out of its smallest vertex. */
static void number_faces(const struct fast_net *net, const uint16_t *last, struct walks *w)
{
    w->faces = 1;
    for (int i = 0; i < w->count; i++) {
        bool hole = w->of[last[w->smallest[i]]] == i;

        w->face[i] = hole ? HOLE : w->faces;
        if (hole) {
            int seen = look_west(net, w->smallest[i]);
            w->sees[i] = seen < 0 ? NONE : w->of[2 * seen + 1];
        } else {
            w->outer[w->faces++] = w->least[i];
        }
    }
    w->outer[0] = NONE;
}

/* A hole walk belongs to the face of the walk that it sees. */
static void place_holes(struct walks *w)
{
    memset(w->holes, 0, w->faces * sizeof w->holes[0]);
    for (int i = 0; i < w->count; i++) {
        int seen = i;

        if (w->face[i] != HOLE)
            continue;
        while (seen != NONE && w->face[seen] == HOLE)
            seen = w->sees[seen];
        w->least[i] = seen == NONE ? 0 : w->face[seen];
        w->holes[w->least[i]]++;
    }
    for (int i = 0; i < w->count; i++)
        if (w->face[i] == HOLE)
            w->face[i] = w->least[i];
}

static void find_faces(const struct fast_net *net, struct walks *w)
{
    static struct way ways[2 * EDGES];
    static uint16_t last[VERTICES];

    for (int k = 0; k < net->edges; k++) {
        ways[2 * k] = (struct way){ net->line[k].dx, net->line[k].dy };
        ways[2 * k + 1] = (struct way){ -net->line[k].dx, -net->line[k].dy };
    }
    fast_followers(net->origin, ways, net->vertices, net->edges, w->next, last);
    find_walks(net, w);
    number_faces(net, last, w);
}

/* The label of a face in a map: that of a half-edge of its outer walk along an edge of the map, or what is seen looking west. */
static int face_label(const struct fast_map *map, int m, const struct fast_net *net, const struct walks *w, int least)
{
    int h = least;

    do {
        int k = net->source[h / 2][m];
        if (k != 0)
            return map->label[h % 2 == 0 ? map->down[k - 1] ^ 1 : map->down[k - 1]];
        h = w->next[h];
    } while (h != least);
    const struct line *l = &net->line[least / 2];
    return fast_label_west(map, &net->at[net->origin[least & ~1]], l->dx, l->dy);
}

static void store_vertices(const struct fast_net *net, struct plain_tables *t)
{
    for (int v = 0; v < net->vertices; v++) {
        int64_t *row = t->vertices + 4 * v;
        row[0] = net->at[v].x, row[1] = net->at[v].y, row[2] = net->at[v].d, row[3] = NONE;
    }
    for (int h = 2 * net->edges - 1; h >= 0; h--)
        t->vertices[4 * net->origin[h] + 3] = h;
    memset(t->vertices + 4 * net->vertices, 0, (t->vertex_cells - 4 * net->vertices) * sizeof t->vertices[0]);
}

static void store_halves(const struct fast_net *net, const struct walks *w, struct plain_tables *t)
{
    for (int h = 0; h < 2 * net->edges; h++) {
        uint16_t *row = t->halves + 5 * h;
        row[0] = net->origin[h], row[1] = h ^ 1, row[2] = w->next[h], row[4] = w->face[w->of[h]];
        t->halves[5 * w->next[h] + 3] = h;
    }
    memset(t->halves + 10 * net->edges, 0, (t->half_cells - 10 * net->edges) * sizeof t->halves[0]);
}

static void store_sources(const struct fast_net *net, struct plain_tables *t)
{
    for (int k = 0; k < net->edges; k++) {
        uint32_t *row = t->sources + SOURCE_WIDTH * k;
        row[0] = net->source[k][0], row[1] = net->source[k][1], row[2] = 0;
    }
    memset(t->sources + SOURCE_WIDTH * net->edges, 0, (t->source_cells - SOURCE_WIDTH * net->edges) * sizeof t->sources[0]);
}

static void store_faces(const struct fast_map *maps, const struct fast_net *net, const struct walks *w, struct plain_tables *t)
{
    for (int f = 0; f < w->faces; f++) {
        uint16_t *row = t->faces + FACE_WIDTH * f;
        for (int m = 0; m < 2; m++)
            row[m] = f == 0 ? 0 : face_label(&maps[m], m, net, w, w->outer[f]);
        row[2] = 0, row[3] = w->outer[f], row[4] = w->holes[f];
    }
    memset(t->faces + FACE_WIDTH * w->faces, 0, (t->face_cells - FACE_WIDTH * w->faces) * sizeof t->faces[0]);
}

static struct plain_answer refuse(int number, int map, int place, struct plain_tables *t)
{
    memset(t->vertices, 0, t->vertex_cells * sizeof t->vertices[0]);
    memset(t->halves, 0, t->half_cells * sizeof t->halves[0]);
    memset(t->sources, 0, t->source_cells * sizeof t->sources[0]);
    memset(t->faces, 0, t->face_cells * sizeof t->faces[0]);
    return (struct plain_answer){ .number = number, .map = map, .place = place };
}

static struct plain_answer overlay_maps(const struct fast_map *maps, struct plain_tables *t)
{
    static struct fast_net net;
    static struct walks walks;
    int vertex_room = smaller(VERTICES, t->vertex_cells / 4);
    int edge_room = smaller(smaller(EDGES, t->half_cells / 10), t->source_cells / SOURCE_WIDTH);
    int over = fast_cut(maps, vertex_room, edge_room, &net);

    if (over != 0)
        return refuse(11, 0, over, t);
    find_faces(&net, &walks);
    if (walks.faces > smaller(FACES, t->face_cells / FACE_WIDTH))
        return refuse(11, 0, 3, t);
    place_holes(&walks);
    store_vertices(&net, t);
    store_halves(&net, &walks, t);
    store_sources(&net, t);
    store_faces(maps, &net, &walks, t);
    return (struct plain_answer){ .vertices = net.vertices, .edges = net.edges, .faces = walks.faces };
}

struct plain_answer fast_overlay(const uint8_t *zones, size_t zones_length, const uint8_t *blocks, size_t blocks_length,
                                 struct plain_tables *tables)
{
    static struct fast_map maps[2];
    struct plain_answer fault = fast_load(zones, zones_length, &maps[0]);

    if (fault.number != 0)
        return refuse(fault.number, 1, fault.place, tables);
    fault = fast_load(blocks, blocks_length, &maps[1]);
    return fault.number != 0 ? refuse(fault.number, 2, fault.place, tables) : overlay_maps(maps, tables);
}
