#include <string.h>

#include "cut.h"

/* The faces of the overlay: face 0 is the outside, each outer walk makes one. */
struct faces {
    int count;
    uint16_t least[FACES];
    uint16_t holes[FACES];
    uint16_t label[FACES][2];
    uint16_t of_walk[2 * EDGES]; /* at a walk's least half-edge; NONE while a hole walk's face is not known */
};

static struct plain_answer room_refusal(int place)
{
    return (struct plain_answer){ .number = 11, .place = place };
}

static int smaller(int a, size_t b)
{
    return (size_t)a < b ? a : (int)b;
}

/* Numbers the outer walks; false if the faces are more than room. */
static bool number_faces(const struct net *n, int room, struct faces *f)
{
    f->count = 1;
    for (int h = 0; h < 2 * n->edges; h++) {
        if (n->lead[h] != h)
            continue;
        f->of_walk[h] = NONE;
        if (!is_hole(n, h)) {
            if (f->count >= room)
                return false;
            f->least[f->count] = h;
            f->of_walk[h] = f->count++;
        }
    }
    f->least[0] = NONE;
    return room >= 1;
}

/* The face of the walk of least half-edge h: a hole walk belongs to the face of the half-edge seen strictly west. */
static int face_of(const struct net *n, struct faces *f, int h)
{
    if (f->of_walk[h] == NONE) {
        int seen = look_west(n, &n->at[n->smallest[h]], 0, 0);
        f->of_walk[h] = seen < 0 ? 0 : face_of(n, f, n->lead[seen]);
    }
    return f->of_walk[h];
}

static void place_holes(const struct net *n, struct faces *f)
{
    memset(f->holes, 0, sizeof f->holes);
    for (int h = 0; h < 2 * n->edges; h++)
        if (n->lead[h] == h && is_hole(n, h))
            f->holes[face_of(n, f, h)]++;
}

/* The label that half-edge h of the overlay has from edge k of the map, along which it lies. Half-edge 2e runs upward. */
static int label_along(const struct map *map, int k, int h)
{
    const struct net *n = &map->net;
    bool from_lower = compare_points(&n->at[n->origin[2 * k]], &n->at[n->origin[2 * k + 1]]) < 0;

    return map->label[2 * k + ((h % 2 == 0) != from_lower)];
}

/* The label of a face in a map: that of a half-edge of its outer walk along an edge of the map, or what is seen looking west. */
static int face_label(const struct map *map, int m, const struct net *n, const struct source *sources, int least)
{
    int h = least;

    do {
        int k = sources[h / 2].in[m];
        if (k >= 0)
            return label_along(map, k, h);
        h = n->next[h];
    } while (h != least);
    const struct line *l = &n->line[least / 2];
    int seen = look_west(&map->net, &n->at[n->origin[least & ~1]], l->dx, l->dy);
    return seen < 0 ? 0 : map->label[seen];
}

static void store_vertices(const struct net *n, int64_t *rows)
{
    for (int v = 0; v < n->vertices; v++) {
        rows[4 * v] = n->at[v].x;
        rows[4 * v + 1] = n->at[v].y;
        rows[4 * v + 2] = n->at[v].d;
        rows[4 * v + 3] = NONE;
    }
    for (int h = 2 * n->edges - 1; h >= 0; h--)
        rows[4 * n->origin[h] + 3] = h;
}

static void store_halves(const struct net *n, struct faces *f, uint16_t *rows)
{
    for (int h = 0; h < 2 * n->edges; h++) {
        rows[5 * h] = n->origin[h];
        rows[5 * h + 1] = twin(h);
        rows[5 * h + 2] = n->next[h];
        rows[5 * n->next[h] + 3] = h;
        rows[5 * h + 4] = f->of_walk[n->lead[h]];
    }
}

static void store_sources(const struct net *n, const struct source *sources, uint32_t *rows)
{
    for (int k = 0; k < n->edges; k++)
        for (int m = 0; m < SOURCE_WIDTH; m++)
            rows[SOURCE_WIDTH * k + m] = m < 2 ? sources[k].in[m] + 1 : 0;
}

static void store_faces(const struct faces *f, uint16_t *rows)
{
    for (int i = 0; i < f->count; i++) {
        rows[FACE_WIDTH * i] = f->label[i][0];
        rows[FACE_WIDTH * i + 1] = f->label[i][1];
        rows[FACE_WIDTH * i + 2] = 0;
        rows[FACE_WIDTH * i + 3] = f->least[i];
        rows[FACE_WIDTH * i + 4] = f->holes[i];
    }
}

/* The walks and faces of a net, with their labels; false if the faces are more than room. */
static bool find_faces(const struct map *maps, const struct source *sources, int room, struct net *n, struct faces *f)
{
    link_net(n);
    if (!number_faces(n, room, f))
        return false;
    place_holes(n, f);
    f->label[0][0] = f->label[0][1] = 0;
    for (int i = 1; i < f->count; i++)
        for (int m = 0; m < 2; m++)
            f->label[i][m] = face_label(&maps[m], m, n, sources, f->least[i]);
    return true;
}

/* Drops the edges with the same labels on both sides, and then the vertices without an edge; the others close up in order. */
static void drop_edges(struct net *n, struct source *sources, const struct faces *f)
{
    static uint16_t number[VERTICES];
    int edges = 0, vertices = 0;

    memset(number, 0, sizeof number);
    for (int k = 0; k < n->edges; k++) {
        const uint16_t *left = f->label[f->of_walk[n->lead[2 * k]]], *right = f->label[f->of_walk[n->lead[2 * k + 1]]];

        if (left[0] == right[0] && left[1] == right[1])
            continue;
        n->line[edges] = n->line[k];
        sources[edges] = sources[k];
        for (int i = 0; i < 2; i++) {
            n->origin[2 * edges + i] = n->origin[2 * k + i];
            number[n->origin[2 * k + i]] = 1;
        }
        edges++;
    }
    for (int v = 0; v < n->vertices; v++)
        if (number[v]) {
            number[v] = vertices;
            n->at[vertices++] = n->at[v];
        }
    for (int h = 0; h < 2 * edges; h++)
        n->origin[h] = number[n->origin[h]];
    n->vertices = vertices;
    n->edges = edges;
}

static struct plain_answer overlay_maps(const struct map *maps, bool melts, struct plain_tables *t)
{
    static struct net net;
    static struct source sources[EDGES];
    static struct faces faces;
    int vertex_room = smaller(VERTICES, t->vertex_cells / 4);
    int edge_room = smaller(smaller(EDGES, t->half_cells / 10), t->source_cells / SOURCE_WIDTH);
    int face_room = smaller(FACES, t->face_cells / FACE_WIDTH);

    int over = cut_maps(maps, vertex_room, edge_room, &net, sources);
    if (over != 0)
        return room_refusal(over);
    if (!find_faces(maps, sources, face_room, &net, &faces))
        return room_refusal(3);
    if (melts) {
        drop_edges(&net, sources, &faces);
        find_faces(maps, sources, face_room, &net, &faces);
    }
    store_vertices(&net, t->vertices);
    store_halves(&net, &faces, t->halves);
    store_sources(&net, sources, t->sources);
    store_faces(&faces, t->faces);
    return (struct plain_answer){ .vertices = net.vertices, .edges = net.edges, .faces = faces.count };
}

static struct plain_answer lay(const uint8_t *zones, size_t zones_length, const uint8_t *blocks, size_t blocks_length, bool melts,
                               struct plain_tables *tables)
{
    static struct map maps[2];

    memset(tables->vertices, 0, tables->vertex_cells * sizeof tables->vertices[0]);
    memset(tables->halves, 0, tables->half_cells * sizeof tables->halves[0]);
    memset(tables->sources, 0, tables->source_cells * sizeof tables->sources[0]);
    memset(tables->faces, 0, tables->face_cells * sizeof tables->faces[0]);
    struct plain_answer fault = load_map(zones, zones_length, &maps[0]);
    fault.map = 1;
    if (fault.number == 0) {
        fault = load_map(blocks, blocks_length, &maps[1]);
        fault.map = 2;
    }
    return fault.number != 0 ? fault : overlay_maps(maps, melts, tables);
}

struct plain_answer plain_overlay(const uint8_t *zones, size_t zones_length, const uint8_t *blocks, size_t blocks_length,
                                  struct plain_tables *tables)
{
    return lay(zones, zones_length, blocks, blocks_length, false, tables);
}

struct plain_answer plain_melt(const uint8_t *zones, size_t zones_length, const uint8_t *blocks, size_t blocks_length,
                               struct plain_tables *tables)
{
    return lay(zones, zones_length, blocks, blocks_length, true, tables);
}
