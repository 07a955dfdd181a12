#include <stdbool.h>
#include <string.h>

#include "bytes.h"
#include "limits.h"
#include "ovfile.h"

enum { HEAD = 11, NUMBERS = 2, DENOMINATOR = 4 };

/* Bytes of X or Y, and the maps that have sources and labels, by version. */
static const int wide[] = { 0, 5, 6, 6 }, maps[] = { 0, 2, 2, 3 };

static struct plain_answer refuse(int number, int place)
{
    return (struct plain_answer){ .number = number, .place = place };
}

/* Field i of edge k: lower, upper, the sources, the two followers, the two faces. */
static int edge_field(const struct overlay *o, int k, int i)
{
    return u16_at(o->edge, NUMBERS * ((6 + o->maps) * (size_t)k + i));
}

static int follower(const struct overlay *o, int h)
{
    return edge_field(o, h / 2, 2 + o->maps + h % 2);
}

int face_field(const struct overlay *o, int f, int i)
{
    return u16_at(o->face, NUMBERS * ((2 + o->maps) * (size_t)f + i));
}

/* The first edge whose record is not sound, or NONE. */
static int unsound(const struct overlay *o)
{
    bool taken[2 * EDGES] = { false };

    for (int k = 0; k < o->edges; k++) {
        int lower = edge_field(o, k, 0), upper = edge_field(o, k, 1), source = 0;

        for (int m = 0; m < o->maps; m++)
            source |= edge_field(o, k, 2 + m);
        if (lower >= upper || upper >= o->vertices || source == 0)
            return k;
        for (int h = 2 * k; h < 2 * k + 2; h++) {
            int next = follower(o, h), face = edge_field(o, k, 4 + o->maps + h % 2);

            if (face >= o->faces || next >= 2 * o->edges || edge_field(o, next / 2, next % 2) != (h % 2 ? lower : upper) || taken[next])
                return k;
            taken[next] = true;
        }
    }
    return NONE;
}

struct plain_answer open_overlay(const uint8_t *file, size_t length, struct overlay *o)
{
    if (length < HEAD || file[0] != 'Z' || file[1] != 'O' || file[2] != 'V')
        return refuse(1, 0);
    int version = u16_at(file, 3);
    if (version < 1 || version > 3)
        return refuse(2, 0);
    o->vertices = u16_at(file, 5), o->edges = u16_at(file, 7), o->faces = u16_at(file, 9);
    o->maps = maps[version], o->wide = wide[version];
    if (o->vertices > VERTICES || o->edges > EDGES || o->faces > FACES)
        return refuse(3, 0);
    size_t edges_at = HEAD + (2 * o->wide + DENOMINATOR) * (size_t)o->vertices;
    size_t faces_at = edges_at + NUMBERS * (6 + o->maps) * (size_t)o->edges;
    if (length != faces_at + NUMBERS * (2 + o->maps) * (size_t)o->faces)
        return refuse(4, 0);
    o->vertex = file + HEAD, o->edge = file + edges_at, o->face = file + faces_at;
    int k = unsound(o);
    return k == NONE ? refuse(0, 0) : refuse(21, k);
}

/* Vertices, with their least outgoing half-edges, and half-edges, with their predecessors. */
static void read_net(const struct overlay *o, struct plain_tables *t)
{
    for (int v = 0; v < o->vertices; v++) {
        int64_t *row = t->vertices + 4 * v;
        size_t at = (2 * o->wide + DENOMINATOR) * (size_t)v;

        row[0] = signed_at(o->vertex, at, o->wide);
        row[1] = signed_at(o->vertex, at + o->wide, o->wide);
        row[2] = number_at(o->vertex, at + 2 * o->wide, DENOMINATOR);
        row[3] = NONE;
    }
    for (int h = 2 * o->edges - 1; h >= 0; h--) {
        uint16_t *row = t->halves + 5 * h;

        row[0] = edge_field(o, h / 2, h % 2);
        row[1] = h ^ 1;
        row[2] = follower(o, h);
        t->halves[5 * row[2] + 3] = h;
        row[4] = edge_field(o, h / 2, 4 + o->maps + h % 2);
        t->vertices[4 * row[0] + 3] = h;
    }
}

/* Sources and faces. */
static void read_labels(const struct overlay *o, struct plain_tables *t)
{
    for (int k = 0; k < o->edges; k++)
        for (int m = 0; m < SOURCE_WIDTH; m++)
            t->sources[SOURCE_WIDTH * k + m] = m < o->maps ? edge_field(o, k, 2 + m) : 0;
    for (int f = 0; f < o->faces; f++) {
        uint16_t *row = t->faces + FACE_WIDTH * f;

        for (int m = 0; m < SOURCE_WIDTH; m++)
            row[m] = m < o->maps ? face_field(o, f, m) : 0;
        row[3] = face_field(o, f, o->maps);
        row[4] = face_field(o, f, o->maps + 1);
    }
}

struct plain_answer plain_read(const uint8_t *file, size_t length, struct plain_tables *t)
{
    struct overlay o;
    struct plain_answer a = open_overlay(file, length, &o);

    memset(t->vertices, 0, t->vertex_cells * sizeof t->vertices[0]);
    memset(t->halves, 0, t->half_cells * sizeof t->halves[0]);
    memset(t->sources, 0, t->source_cells * sizeof t->sources[0]);
    memset(t->faces, 0, t->face_cells * sizeof t->faces[0]);
    if (a.number != 0)
        return a;
    if (t->vertex_cells / 4 < (size_t)o.vertices)
        return refuse(11, 1);
    if (t->half_cells / 10 < (size_t)o.edges || t->source_cells / SOURCE_WIDTH < (size_t)o.edges)
        return refuse(11, 2);
    if (t->face_cells / FACE_WIDTH < (size_t)o.faces)
        return refuse(11, 3);
    read_net(&o, t);
    read_labels(&o, t);
    return (struct plain_answer){ .vertices = o.vertices, .edges = o.edges, .faces = o.faces };
}

/* The first vertex whose numbers do not fit their bytes, or whose last one is not its least outgoing half-edge, or NONE. */
static int unfit(int vertices, int edges, const struct plain_tables *t)
{
    uint16_t first[VERTICES];
    const int64_t most = (int64_t)1 << 47;

    for (int v = 0; v < vertices; v++)
        first[v] = NONE;
    for (int h = 2 * edges - 1; h >= 0; h--)
        if (t->halves[5 * h] < vertices)
            first[t->halves[5 * h]] = h;
    for (int v = 0; v < vertices; v++) {
        const int64_t *row = t->vertices + 4 * v;

        if (row[0] < -most || row[0] >= most || row[1] < -most || row[1] >= most || row[2] < 0 || row[2] >> 32 != 0 || row[3] != first[v])
            return v;
    }
    return NONE;
}

/* Whether half-edge h is sound, and no half-edge before it has its follower. */
static bool half_sound(const struct plain_tables *t, int edges, int faces, int h, bool *taken)
{
    const uint16_t *row = t->halves + 5 * h;
    int next = row[2], before = row[3];

    if (row[1] != (h ^ 1) || next >= 2 * edges || before >= 2 * edges || row[4] >= faces)
        return false;
    if (t->halves[5 * next] != t->halves[5 * (h ^ 1)] || t->halves[5 * before + 2] != h || taken[next])
        return false;
    taken[next] = true;
    return true;
}

/* The first edge that is not sound, or NONE. */
static int unlinked(int vertices, int edges, int faces, const struct plain_tables *t)
{
    bool taken[2 * EDGES] = { false };

    for (int k = 0; k < edges; k++) {
        const uint32_t *source = t->sources + SOURCE_WIDTH * k;
        int lower = t->halves[10 * k], upper = t->halves[10 * k + 5];

        if (lower >= upper || upper >= vertices || (source[0] | source[1] | source[2]) == 0 || (source[0] | source[1] | source[2]) >> 16 != 0)
            return k;
        if (!half_sound(t, edges, faces, 2 * k, taken) || !half_sound(t, edges, faces, 2 * k + 1, taken))
            return k;
    }
    return NONE;
}

/* The writer's refusal, or number 0 and the length of the file. */
static struct plain_file judge(int vertices, int edges, int faces, const struct plain_tables *t, size_t room)
{
    size_t length = HEAD + 16 * (size_t)vertices + 18 * (size_t)edges + 10 * (size_t)faces, e = edges;

    if (vertices > VERTICES || edges > EDGES || faces > FACES || t->vertex_cells / 4 < (size_t)vertices || t->half_cells / 10 < e
        || t->source_cells / SOURCE_WIDTH < e || t->face_cells / FACE_WIDTH < (size_t)faces)
        return (struct plain_file){ .number = 3 };
    int v = unfit(vertices, edges, t);
    if (v != NONE)
        return (struct plain_file){ .number = 5, .place = v };
    int k = unlinked(vertices, edges, faces, t);
    if (k != NONE)
        return (struct plain_file){ .number = 21, .place = k };
    return length > room ? (struct plain_file){ .number = 11, .place = 4 } : (struct plain_file){ .length = length };
}

struct plain_file plain_write(int vertices, int edges, int faces, const struct plain_tables *t, uint8_t *buffer, size_t room)
{
    struct plain_file file = judge(vertices, edges, faces, t, room);
    size_t at = HEAD;

    if (file.number == 0) {
        const uint8_t head[HEAD] = { 'Z', 'O', 'V', 3, 0, vertices & 255, vertices >> 8, edges & 255, edges >> 8, faces & 255, faces >> 8 };

        memcpy(buffer, head, HEAD);
        for (int v = 0; v < vertices; v++)
            for (int i = 0; i < 3; i++)
                at = put_number(buffer, at, t->vertices[4 * v + i], i < 2 ? 6 : DENOMINATOR);
        for (int k = 0; k < edges; k++) {
            const uint16_t *up = t->halves + 10 * k, *down = up + 5;
            const uint32_t *source = t->sources + SOURCE_WIDTH * k;
            const uint16_t fields[] = { up[0], down[0], source[0], source[1], source[2], up[2], down[2], up[4], down[4] };

            for (int i = 0; i < 9; i++)
                at = put_number(buffer, at, fields[i], NUMBERS);
        }
        for (int i = 0; i < FACE_WIDTH * faces; i++)
            at = put_number(buffer, at, t->faces[i], NUMBERS);
    }
    memset(buffer + file.length, 0, room - file.length);
    return file;
}
