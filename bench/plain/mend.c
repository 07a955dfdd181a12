#include <string.h>

#include "bytes.h"
#include "map.h"
#include "mend.h"

enum { HEAD = 9, VERTEX = 4, EDGE = 8, STEPS = 4 };

/* What becomes of each vertex and edge: the step that drops it, or 0; and of a vertex the one that it is merged into, and its number in the mended file. */
struct mending {
    int vertices, edges;
    const uint8_t *vertex, *edge;
    uint16_t into[MAP_VERTICES], number[MAP_VERTICES];
    uint8_t vertex_step[MAP_VERTICES], edge_step[MAP_EDGES];
};

/* End i of edge k, after merging. */
static int end_at(const struct mending *m, int k, int i)
{
    return m->into[u16_at(m->edge, EDGE * k + 2 * i)];
}

/* Rules 1 to 5, and 7 for an end that names no vertex. */
static struct plain_mended judge(const uint8_t *file, size_t length, struct mending *m)
{
    int fault = form_fault(file, length);

    if (fault != 0)
        return (struct plain_mended){ .number = fault };
    m->vertices = u16_at(file, 5), m->edges = u16_at(file, 7);
    m->vertex = file + HEAD, m->edge = m->vertex + VERTEX * m->vertices;
    for (int v = 0; v < m->vertices; v++)
        if (beyond(signed_at(m->vertex, VERTEX * v, 2)) || beyond(signed_at(m->vertex, VERTEX * v + 2, 2)))
            return (struct plain_mended){ .number = 5, .place = v };
    for (int k = 0; k < m->edges; k++)
        if (u16_at(m->edge, EDGE * k) >= m->vertices || u16_at(m->edge, EDGE * k + 2) >= m->vertices)
            return (struct plain_mended){ .number = 7, .place = k };
    return (struct plain_mended){ 0 };
}

/* A vertex on another is merged into the one of lowest number. */
static void merge_vertices(struct mending *m)
{
    for (int v = 0; v < m->vertices; v++) {
        int u = 0;

        while (memcmp(m->vertex + VERTEX * u, m->vertex + VERTEX * v, VERTEX) != 0)
            u++;
        m->into[v] = u;
        m->vertex_step[v] = u < v ? 1 : STEPS;
    }
}

/* Edges without length and doubled edges; what an edge that is kept ends at is kept too. */
static void drop_edges(struct mending *m)
{
    for (int k = 0; k < m->edges; k++) {
        int a = end_at(m, k, 0), b = end_at(m, k, 1), step = a == b ? 2 : 0;

        for (int j = 0; j < k && step == 0; j++) {
            int c = end_at(m, j, 0), d = end_at(m, j, 1);
            if ((a == c && b == d) || (a == d && b == c))
                step = 3;
        }
        m->edge_step[k] = step;
        if (step == 0)
            m->vertex_step[a] = m->vertex_step[b] = 0;
    }
}

/* The mended file; answers its length, or 0 where it is longer than room. */
static size_t write_mended(struct mending *m, uint8_t *out, size_t room)
{
    int vertices = 0, edges = 0;
    size_t at = HEAD;

    for (int v = 0; v < m->vertices; v++)
        if (m->vertex_step[v] == 0)
            m->number[v] = vertices++;
    for (int k = 0; k < m->edges; k++)
        edges += m->edge_step[k] == 0;
    if (room < HEAD + VERTEX * (size_t)vertices + EDGE * (size_t)edges)
        return 0;
    const uint8_t head[HEAD] = { 'Z', 'M', 'P', 1, 0, vertices & 255, vertices >> 8, edges & 255, edges >> 8 };
    memcpy(out, head, HEAD);
    for (int v = 0; v < m->vertices; v++)
        if (m->vertex_step[v] == 0) {
            memcpy(out + at, m->vertex + VERTEX * v, VERTEX);
            at += VERTEX;
        }
    for (int k = 0; k < m->edges; k++)
        if (m->edge_step[k] == 0) {
            at = put_number(out, at, m->number[end_at(m, k, 0)], 2);
            at = put_number(out, at, m->number[end_at(m, k, 1)], 2);
            memcpy(out + at, m->edge + EDGE * k + 4, 4);
            at += 4;
        }
    return at;
}

/* The list by step, then number; answers its entries, or -1 where they are more than room. */
static int write_list(const struct mending *m, uint16_t *list, size_t room)
{
    int entries = 0;

    for (int step = 1; step <= STEPS; step++) {
        bool of_vertices = step == 1 || step == STEPS;
        const uint8_t *steps = of_vertices ? m->vertex_step : m->edge_step;

        for (int i = 0; i < (of_vertices ? m->vertices : m->edges); i++) {
            if (steps[i] != step)
                continue;
            if ((size_t)entries == room)
                return -1;
            list[2 * entries] = step;
            list[2 * entries++ + 1] = i;
        }
    }
    return entries;
}

static struct plain_mended mend(const uint8_t *file, size_t length, uint8_t *out, size_t room, uint16_t *list, size_t list_cells)
{
    struct mending m;
    struct plain_mended fault = judge(file, length, &m);

    if (fault.number != 0)
        return fault;
    merge_vertices(&m);
    drop_edges(&m);
    size_t mended = write_mended(&m, out, room);
    if (mended == 0)
        return (struct plain_mended){ .number = 11, .place = 4 };
    int entries = write_list(&m, list, list_cells / 2);
    if (entries < 0)
        return (struct plain_mended){ .number = 11, .place = 5 };
    return (struct plain_mended){ .length = mended, .entries = entries };
}

struct plain_mended plain_mend(const uint8_t *file, size_t length, uint8_t *out, size_t room, uint16_t *list, size_t list_cells)
{
    struct plain_mended a = mend(file, length, out, room, list, list_cells);

    memset(out + a.length, 0, room - a.length);
    memset(list + 2 * a.entries, 0, (list_cells - 2 * a.entries) * sizeof list[0]);
    return a;
}
