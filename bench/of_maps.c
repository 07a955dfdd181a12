/* Operations on map files: the check, mending, how edges meet. */
#include <string.h>

#include "operations.h"
#include "plain/asked.h"
#include "plain/bytes.h"
#include "plain/map.h"
#include "plain/mend.h"

static int edges_of(const struct file *file)
{
    return u16_at(file->bytes, 7);
}

static unsigned both_edges(void)
{
    return edges_of(&sheet.zones) + edges_of(&sheet.blocks);
}

static uint64_t plain_check_one(const struct file *file)
{
    static struct map map;
    struct plain_answer a = load_map(file->bytes, file->length, &map);

    return a.number != 0 ? a.number + ((uint64_t)a.place << 16) : (uint64_t)map.net.vertices << 16 | (uint64_t)map.net.edges << 32;
}

static void plain_check(void)
{
    said[0] = mix(plain_check_one(&sheet.zones), plain_check_one(&sheet.blocks));
}

static void proved_check(void)
{
    said[1] = mix(bonnetewe_check(sheet.zones.bytes, sheet.zones.length), bonnetewe_check(sheet.blocks.bytes, sheet.blocks.length));
}

/* A map with as many of its vertices and edges a second time as there is room for: the edges run between the second vertices. */
static const struct file *spoiled(void)
{
    static struct file file;
    const struct file *from = &sheet.zones;
    int vertices = u16_at(from->bytes, 5), edges = edges_of(from), again = 0;
    int more = vertices <= MAP_VERTICES - vertices ? vertices : MAP_VERTICES - vertices;
    size_t at = 9 + 4 * (vertices + more);

    memcpy(file.bytes, from->bytes, 9 + 4 * vertices);
    memcpy(file.bytes + 9 + 4 * vertices, from->bytes + 9, 4 * more);
    memcpy(file.bytes + at, from->bytes + 9 + 4 * vertices, 8 * edges);
    at += 8 * edges;
    for (int k = 0; k < edges && edges + again < MAP_EDGES; k++, again++) {
        const uint8_t *edge = from->bytes + 9 + 4 * vertices + 8 * k;
        for (int i = 0; i < 2; i++)
            at = put_number(file.bytes, at, u16_at(edge, 2 * i) < more ? vertices + u16_at(edge, 2 * i) : u16_at(edge, 2 * i), 2);
        memcpy(file.bytes + at, edge + 4, 4);
        at += 4;
    }
    put_number(file.bytes, put_number(file.bytes, 5, vertices + more, 2), edges + again, 2);
    file.length = at;
    return &file;
}

static uint8_t mended[2][BONNETEWE_MEND_BYTES];
static uint16_t lists[2][BONNETEWE_MEND_CELLS];
static const struct file *to_mend;

static unsigned mend_sound(void)
{
    to_mend = &sheet.zones;
    return to_mend->length;
}

static unsigned mend_spoiled(void)
{
    to_mend = spoiled();
    return to_mend->length;
}

static void plain_mends(void)
{
    struct plain_mended a = plain_mend(to_mend->bytes, to_mend->length, mended[0], sizeof mended[0], lists[0], BONNETEWE_MEND_CELLS);

    said[0] = a.number != 0 ? a.number + ((uint64_t)a.place << 32) : (uint64_t)a.length << 16 | (uint64_t)a.entries << 32;
}

static void proved_mends(void)
{
    said[1] = bonnetewe_mend(to_mend->bytes, to_mend->length, mended[1], sizeof mended[1], lists[1], BONNETEWE_MEND_CELLS);
}

static int mends_agree(void)
{
    return said_same() && memcmp(mended[0], mended[1], sizeof mended[0]) == 0 && memcmp(lists[0], lists[1], sizeof lists[0]) == 0;
}

/* The ends of each edge of both maps. */
static int16_t ends[2][MAP_EDGES][4];

static unsigned pairs(void)
{
    for (int m = 0; m < 2; m++) {
        const struct file *file = m == 0 ? &sheet.zones : &sheet.blocks;
        int vertices = u16_at(file->bytes, 5);

        for (int k = 0; k < edges_of(file); k++)
            for (int i = 0; i < 4; i++)
                ends[m][k][i] = u16_at(file->bytes, 9 + 4 * u16_at(file->bytes, 9 + 4 * vertices + 8 * k + 2 * (i / 2)) + 2 * (i % 2));
    }
    return edges_of(&sheet.zones) * edges_of(&sheet.blocks);
}

static void plain_meets(void)
{
    uint64_t sum = 0;

    for (int j = 0; j < edges_of(&sheet.zones); j++)
        for (int k = 0; k < edges_of(&sheet.blocks); k++) {
            int16_t corners[8];

            memcpy(corners, ends[0][j], sizeof ends[0][j]);
            memcpy(corners + 4, ends[1][k], sizeof ends[1][k]);
            struct plain_meeting m = plain_meet(corners);
            sum = mix(mix(mix(mix(sum, m.kind), m.x), m.y), m.d);
        }
    said[0] = sum;
}

static void proved_meets(void)
{
    uint64_t sum = 0;

    for (int j = 0; j < edges_of(&sheet.zones); j++)
        for (int k = 0; k < edges_of(&sheet.blocks); k++) {
            const int16_t *a = ends[0][j], *b = ends[1][k];
            int64_t point[3];
            bonnetewe_answer m = bonnetewe_meet(a[0], a[1], a[2], a[3], b[0], b[1], b[2], b[3], point, 3);

            sum = mix(mix(mix(mix(sum, bonnetewe_kind(m)), point[0]), point[1]), point[2]);
        }
    said[1] = sum;
}

const struct operation of_maps[] = {
    { "check", "edges", both_edges, plain_check, proved_check, said_same },
    { "mend", "bytes", mend_sound, plain_mends, proved_mends, mends_agree },
    { "mend, spoiled", "bytes", mend_spoiled, plain_mends, proved_mends, mends_agree },
    { "meet", "pairs", pairs, plain_meets, proved_meets, said_same },
    { 0 },
};
