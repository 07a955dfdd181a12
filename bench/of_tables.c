/* Operations on the tables of an overlay and on its file: the writer, the reader, the record of an edge, the year; and the height of tide, on numbers. */
#include <string.h>

#include "operations.h"
#include "plain/asked.h"
#include "plain/ovfile.h"
#include "plain/year.h"

static uint8_t written[2][BONNETEWE_FILE_BYTES];

static unsigned file_bytes(void)
{
    return sheet.length;
}

static void plain_writes(void)
{
    struct plain_tables tables = { sheet.vertices, sheet.halves, sheet.sources, sheet.faces, BONNETEWE_VERTEX_CELLS, BONNETEWE_HALF_CELLS,
                                   BONNETEWE_SOURCE_CELLS, BONNETEWE_FACE_CELLS };
    struct plain_file a = plain_write(bonnetewe_vertices(sheet.answer), bonnetewe_edges(sheet.answer), bonnetewe_faces(sheet.answer), &tables,
                                      written[0], sizeof written[0]);

    said[0] = a.number != 0 ? a.number + ((uint64_t)a.place << 32) : (uint64_t)a.length << 16;
}

static void proved_writes(void)
{
    said[1] = bonnetewe_write(bonnetewe_vertices(sheet.answer), bonnetewe_edges(sheet.answer), bonnetewe_faces(sheet.answer), sheet.vertices,
                              BONNETEWE_VERTEX_CELLS, sheet.halves, BONNETEWE_HALF_CELLS, sheet.sources, BONNETEWE_SOURCE_CELLS, sheet.faces,
                              BONNETEWE_FACE_CELLS, written[1], sizeof written[1]);
}

static int writes_agree(void)
{
    return said_same() && memcmp(written[0], written[1], sizeof written[0]) == 0;
}

static struct {
    int64_t vertices[BONNETEWE_VERTEX_CELLS];
    uint32_t sources[BONNETEWE_SOURCE_CELLS];
    uint16_t halves[BONNETEWE_HALF_CELLS], faces[BONNETEWE_FACE_CELLS];
} tables[2];

static void plain_reads(void)
{
    struct plain_tables to = { tables[0].vertices, tables[0].halves, tables[0].sources, tables[0].faces, BONNETEWE_VERTEX_CELLS, BONNETEWE_HALF_CELLS,
                               BONNETEWE_SOURCE_CELLS, BONNETEWE_FACE_CELLS };
    struct plain_answer a = plain_read(sheet.file, sheet.length, &to);

    said[0] = a.number + ((uint64_t)a.vertices << 16) + ((uint64_t)a.edges << 32) + ((uint64_t)a.faces << 48);
}

static void proved_reads(void)
{
    said[1] = bonnetewe_read(sheet.file, sheet.length, tables[1].vertices, BONNETEWE_VERTEX_CELLS, tables[1].halves, BONNETEWE_HALF_CELLS,
                             tables[1].sources, BONNETEWE_SOURCE_CELLS, tables[1].faces, BONNETEWE_FACE_CELLS);
}

static int reads_agree(void)
{
    return said_same() && memcmp(&tables[0], &tables[1], sizeof tables[0]) == 0;
}

static unsigned edges(void)
{
    return bonnetewe_edges(sheet.answer);
}

static void plain_edges(void)
{
    uint64_t sum = 0;

    for (unsigned k = 0; k < edges(); k++) {
        struct plain_edge e = plain_edge(sheet.halves, BONNETEWE_HALF_CELLS, sheet.sources, BONNETEWE_SOURCE_CELLS, k);

        sum = mix(sum, e.kind | (uint64_t)e.lower << 16 | (uint64_t)e.upper << 32);
        sum = mix(sum, e.kind | (uint64_t)e.number[0] << 16 | (uint64_t)e.number[1] << 32 | (uint64_t)e.number[2] << 48);
    }
    said[0] = sum;
}

static void proved_edges(void)
{
    uint64_t sum = 0;

    for (unsigned k = 0; k < edges(); k++) {
        sum = mix(sum, bonnetewe_edge_ends(sheet.halves, BONNETEWE_HALF_CELLS, sheet.sources, BONNETEWE_SOURCE_CELLS, k));
        sum = mix(sum, bonnetewe_edge_sources(sheet.halves, BONNETEWE_HALF_CELLS, sheet.sources, BONNETEWE_SOURCE_CELLS, k));
    }
    said[1] = sum;
}

static struct year plain_sums;
static struct bonnetewe_year proved_sums;

static unsigned files(void)
{
    return YEAR_FILES;
}

static void plain_year(void)
{
    memset(&plain_sums, 0, sizeof plain_sums);
    for (int i = 0; i < YEAR_FILES; i++)
        year_add(&plain_sums, sheet.file, sheet.length);
    int fault = year_fault(&plain_sums, sheet.file, 0, sheet.file, 0);
    said[0] = fault ? (uint64_t)fault : (uint64_t)plain_sums.pairs << 16 | (uint64_t)plain_sums.gaps << 32;
}

static void proved_year(void)
{
    proved_sums = bonnetewe_year_begin();
    for (int i = 0; i < YEAR_FILES; i++)
        proved_sums = bonnetewe_year_add(proved_sums, sheet.file, sheet.length);
    said[1] = bonnetewe_year_close(proved_sums, sheet.file, 0, sheet.file, 0);
}

static int years_agree(void)
{
    int same = said_same();

    for (int i = 0; i < plain_sums.pairs && !plain_sums.over; i++) {
        const struct year_row *r = &plain_sums.row[i];
        const uint32_t *s = &proved_sums.rows[5 * i];

        same &= r->zone == s[0] && r->block == s[1] && (uint32_t)r->sheets == s[2] && (uint32_t)r->faces == s[3];
    }
    return same;
}

enum { QUESTIONS = 65536 };

/* A rule with its numbers and both readings, the same ones for the same i: one in eight is refused. */
struct question {
    uint16_t kind;
    double a, b;
    int32_t first, second;
};

static struct question question(uint32_t i)
{
    uint32_t n = i * 2654435761u;
    struct question q = { 1 + (i & 1), 0, 0, (int32_t)(n % 40001) - 20000, (int32_t)((n >> 7) % 40001) - 20000 };

    q.a = q.kind == 1 ? 0.25 + (n >> 12) * (3.75 / 1048576) : (n >> 12) / 1048576.0;
    q.b = (n >> 9 & 1048575) / 1048575.0;
    if ((i & 15) == 6)
        q.first = BONNETEWE_MISSING;
    if ((i & 15) == 13)
        q.a = 5;
    return q;
}

static unsigned questions(void)
{
    return QUESTIONS;
}

static uint64_t bits(double x)
{
    uint64_t n;

    memcpy(&n, &x, sizeof n);
    return n;
}

static void plain_heights(void)
{
    uint64_t sum = 0;

    for (int i = 0; i < QUESTIONS; i++) {
        struct question q = question(i);
        struct plain_height h = plain_tide(q.kind, q.a, q.b, q.first, q.second);

        sum = mix(mix(mix(sum, h.number), h.millimetres), bits(h.height));
    }
    said[0] = sum;
}

static void proved_heights(void)
{
    uint64_t sum = 0;

    for (int i = 0; i < QUESTIONS; i++) {
        struct question q = question(i);
        bonnetewe_answer a = bonnetewe_tide(q.kind, q.a, q.b, q.first, q.second);
        long millimetres = bonnetewe_done(a) ? bonnetewe_millimetres(a) : 0;

        sum = mix(mix(mix(sum, bonnetewe_number(a)), millimetres), bits(bonnetewe_tide_height(q.kind, q.a, q.b, q.first, q.second)));
    }
    said[1] = sum;
}

const struct operation of_tables[] = {
    { "write", "bytes", file_bytes, plain_writes, proved_writes, writes_agree },
    { "read", "bytes", file_bytes, plain_reads, proved_reads, reads_agree },
    { "edge records", "edges", edges, plain_edges, proved_edges, said_same },
    { "year", "files", files, plain_year, proved_year, years_agree },
    { 0 },
};

const struct operation of_numbers[] = {
    { "height", "questions", questions, plain_heights, proved_heights, said_same },
    { 0 },
};
