/* Bonnetewe: an exact, proved overlay of three maps, and heights of tide, for C. Two maps are three with an empty third.
 *
 * `rt lib` in crates/bonnetewe proves the library and writes crates/bonnetewe/out/libbonnetewe.a, for x86-64 Linux. It allocates nothing and keeps nothing between
 * calls. Of the C library it needs memcpy, memmove and memset, which the compiler may call for it, and nothing else. Each function takes any bytes, any numbers and tables of any lengths; what it answers and what every lent table holds
 * afterwards is fixed by the definitions in crates/paper/specs. crates/bonnetewe/src has the promises.
 *
 * What C has to see to: a pointer leads to as many cells as the length behind it says, aligned as its type asks (NULL with length 0 is an empty table or
 * file), none of a call's writable tables overlaps another of its tables or
 * files, and nothing else writes them during the call. A length is in cells, not in rows or bytes. A call needs up to 1 MB of stack.
 *
 * The tables, one row behind the other:
 *   vertices   4 cells to a row   X, Y, D, the least outgoing half-edge; the point is X/D, Y/D in lowest terms
 *   halves     5 cells            origin, twin, follower, predecessor, face
 *   sources    3 cells            of each overlay edge its edge number + 1 in the first, the second and the third map, 0 for none
 *   faces      5 cells            label in the first, the second and the third map, least outer half-edge (65,535 for face 0), hole walks
 * Half-edges 2k and 2k + 1 are overlay edge k from its lower to its upper vertex, and back. Where a call is done, cells past the counts are 0; where it
 * is refused, all cells are 0.
 *
 * Which side a face lies on: the face of a half-edge lies at its left as one goes along it, so a face's outline runs counter-clockwise; bonnetewe_next leads from half-edge
 * to half-edge round it, from the least outer half-edge of its row until that one comes again. Holes: a hole is bounded by another walk of half-edges with the same
 * face, which runs clockwise; a face's row counts them, and they are found among the half-edges by their face. D: the denominator of both coordinates is one number, above 0
 * and at most 2,048,000,000; a corner of a map has D 1, and two points are the same just where X, Y and D are.
 *
 * To link: cc your.c crates/bonnetewe/out/libbonnetewe.a -o your, and nothing else (c++ in the same way); -I include for this header.
 */
#ifndef BONNETEWE_H
#define BONNETEWE_H

#include <stddef.h>
#include <stdint.h>

#ifdef __cplusplus
extern "C" {
#endif

/* Tables of these lengths hold every overlay, a buffer of this length every overlay file, and a file and a list of these lengths
 * every mended map. */
#define BONNETEWE_VERTEX_CELLS (4 * 1000)
#define BONNETEWE_HALF_CELLS (5 * 4000)
#define BONNETEWE_SOURCE_CELLS (3 * 2000)
#define BONNETEWE_FACE_CELLS (5 * 1334)
#define BONNETEWE_MAP_BYTES (9 + 4 * 200 + 8 * 300) /* the longest map file that is not refused with 3 or 4 */
#define BONNETEWE_MEND_BYTES (9 + 4 * 200 + 8 * 300)
#define BONNETEWE_MEND_CELLS (2 * (200 + 300))
#define BONNETEWE_FILE_BYTES (11 + 16 * 1000 + 18 * 2000 + 10 * 1334)

/* Tables of these lengths hold the pairs and the counts of every list of soundings, and a list that is not refused with 12 has at most so many bytes. */
#define BONNETEWE_PAIR_CELLS (2 * 1334)
#define BONNETEWE_COUNT_CELLS 1334
#define BONNETEWE_LIST_BYTES (4 * 65535)

/* The empty map's file, for a third map where there is none. */
static const uint8_t bonnetewe_empty[9] = {'Z', 'M', 'P', 1, 0, 0, 0, 0, 0};

/* An answer: four numbers of 16 bits, the lowest first. The first is 0 where the call is done, otherwise the number of the rule that is broken. */
typedef uint64_t bonnetewe_answer;

static inline int bonnetewe_done(bonnetewe_answer a)
{
    return (a & 65535) == 0;
}

/* Done: the counts. A map has no count of faces. */
static inline unsigned bonnetewe_vertices(bonnetewe_answer a)
{
    return a >> 16 & 65535;
}

static inline unsigned bonnetewe_edges(bonnetewe_answer a)
{
    return a >> 32 & 65535;
}

static inline unsigned bonnetewe_faces(bonnetewe_answer a)
{
    return a >> 48 & 65535;
}

/* Of tables that hold an overlay: vertex v as decimals, the nearest to X/D and Y/D, for viewing (X and Y have 46 bits at most, so only the division rounds);
 * and the half-edge that follows h round the face at its left. Nothing is checked: v and h are numbers of rows. */
static inline double bonnetewe_x(const int64_t *vertices, size_t v)
{
    return (double)vertices[4 * v] / (double)vertices[4 * v + 2];
}

static inline double bonnetewe_y(const int64_t *vertices, size_t v)
{
    return (double)vertices[4 * v + 1] / (double)vertices[4 * v + 2];
}

static inline unsigned bonnetewe_next(const uint16_t *halves, size_t h)
{
    return halves[5 * h + 2];
}

/* Done, from bonnetewe_write: the length of the file in bytes. */
static inline size_t bonnetewe_length(bonnetewe_answer a)
{
    return a >> 16;
}

/* Done, from bonnetewe_mend: the length of the mended file in bytes, and the number of entries. */
static inline unsigned bonnetewe_mended_length(bonnetewe_answer a)
{
    return a >> 16 & 65535;
}

static inline unsigned bonnetewe_entries(bonnetewe_answer a)
{
    return a >> 32 & 65535;
}

/* Done, from bonnetewe_soundings: the number of pairs, and that of the soundings. */
static inline unsigned bonnetewe_pairs(bonnetewe_answer a)
{
    return a >> 16 & 65535;
}

static inline unsigned bonnetewe_soundings_counted(bonnetewe_answer a)
{
    return a >> 32 & 65535;
}

/* Refused: the rule's number, the map (1, 2 or 3, 0 for none) and the place. README.md says what each means. */
static inline unsigned bonnetewe_number(bonnetewe_answer a)
{
    return a & 65535;
}

static inline unsigned bonnetewe_map(bonnetewe_answer a)
{
    return a >> 16 & 65535;
}

static inline unsigned bonnetewe_place(bonnetewe_answer a)
{
    return a >> 32 & 65535;
}

/* Refused with 8: the other edge, the least one that clashes with the edge at that place; 0 with every other number. */
static inline unsigned bonnetewe_other(bonnetewe_answer a)
{
    return a >> 48 & 65535;
}

/* Done, from bonnetewe_meet: apart (0), touching at an end of either (1), crossing inside both (2), or sharing a stretch (3). */
static inline unsigned bonnetewe_kind(bonnetewe_answer a)
{
    return a >> 16 & 65535;
}

/* An edge record, in two numbers of the same kind, each 0 where there is no such edge. Both begin with the maps that it came from, added up: 1 for the first, 2 for
 * the second, 4 for the third. So 3 is both of the first two, and 7 all three. */
typedef uint64_t bonnetewe_edge_record;

static inline unsigned bonnetewe_edge_kind(bonnetewe_edge_record r)
{
    return r & 65535;
}

/* From bonnetewe_edge_ends: the lower and the upper vertex. */
static inline unsigned bonnetewe_edge_lower(bonnetewe_edge_record r)
{
    return r >> 16 & 65535;
}

static inline unsigned bonnetewe_edge_upper(bonnetewe_edge_record r)
{
    return r >> 32 & 65535;
}

/* From bonnetewe_edge_sources: the edge number in the first, the second and the third map, where the kind says that it has one there, and otherwise 0. */
static inline unsigned bonnetewe_edge_first(bonnetewe_edge_record r)
{
    return r >> 16 & 65535;
}

static inline unsigned bonnetewe_edge_second(bonnetewe_edge_record r)
{
    return r >> 32 & 65535;
}

static inline unsigned bonnetewe_edge_third(bonnetewe_edge_record r)
{
    return r >> 48 & 65535;
}

/* The height of tide: a zone's rule is of one of these kinds. A reading is a whole number of millimetres, or missing. */
#define BONNETEWE_NO_RULE 0
#define BONNETEWE_RATIO 1
#define BONNETEWE_WEIGHTS 2
#define BONNETEWE_MISSING INT32_MIN

/* Done, from bonnetewe_tide: the whole millimetres, of which the answer has the sign and then the magnitude. */
static inline long bonnetewe_millimetres(bonnetewe_answer a)
{
    return a >> 16 & 1 ? -(long)(a >> 32) : (long)(a >> 32);
}

/* Checks one map file: done with its counts of vertices and edges, or refused with rules 1 to 10 and map 0. */
bonnetewe_answer bonnetewe_check(const uint8_t *file, size_t file_length);

/* How the edge from a to b and the edge from c to d meet; refused with 5 for a coordinate beyond 16,000 either way, then 7 for an edge of no length (place 0 the first
 * edge, 1 the second). The table point gets X, Y and D of the one point where they touch or cross, X/D, Y/D in lowest terms, as far as it has cells, and zeros
 * behind; it is all zero where there is no such point. */
bonnetewe_answer bonnetewe_meet(int16_t ax, int16_t ay, int16_t bx, int16_t by, int16_t cx, int16_t cy, int16_t dx, int16_t dy,
                                int64_t *point, size_t point_cells);

/* Mends a map file into a lent file, and lists what was done: in the list each entry is two numbers, the step (1 a vertex merged, 2 an edge without length dropped,
 * 3 an edge doubled dropped, 4 a vertex without edge dropped) and the original number, by step, then number. Past the file and the list all is 0; where it is
 * refused, with 1 to 5, 7, or 11 (place 4 for the file, 5 for the list), both are all 0. */
bonnetewe_answer bonnetewe_mend(const uint8_t *file, size_t file_length, uint8_t *out, size_t out_length,
                                uint16_t *list, size_t list_cells);

/* Lays the second map file over the first and the third over both, into the tables. For two maps hand in bonnetewe_empty, sizeof bonnetewe_empty. */
bonnetewe_answer bonnetewe_overlay(const uint8_t *zones, size_t zones_length, const uint8_t *blocks, size_t blocks_length,
                                   const uint8_t *bed, size_t bed_length, int64_t *vertices, size_t vertex_cells, uint16_t *halves, size_t half_cells,
                                   uint32_t *sources, size_t source_cells, uint16_t *faces, size_t face_cells);

/* The same with the way to collect the vertices chosen: BONNETEWE_PLAIN, each edge tested with all edges of the maps before its own; or any other number, BONNETEWE_SWEPT, a line
 * that passes over the plane and tests only neighbours. For all files both give the same answer and the same tables, refusals included: it is proved. bonnetewe_overlay takes
 * the sweep, which is faster on full sheets, and the plain way where there are few edges. */
#define BONNETEWE_PLAIN 0
#define BONNETEWE_SWEPT 1
bonnetewe_answer bonnetewe_overlay_by(uint16_t way, const uint8_t *zones, size_t zones_length, const uint8_t *blocks, size_t blocks_length,
                                      const uint8_t *bed, size_t bed_length, int64_t *vertices, size_t vertex_cells, uint16_t *halves, size_t half_cells,
                                      uint32_t *sources, size_t source_cells, uint16_t *faces, size_t face_cells);

/* The same with the cells melted together: every edge of the overlay with the same labels on both sides in each map is dropped, then every vertex left without an edge, and the rest is
 * numbered afresh. It is refused exactly where bonnetewe_overlay is, and with the same answer: there must be room for the whole overlay. */
bonnetewe_answer bonnetewe_melt(const uint8_t *zones, size_t zones_length, const uint8_t *blocks, size_t blocks_length,
                                const uint8_t *bed, size_t bed_length, int64_t *vertices, size_t vertex_cells, uint16_t *halves, size_t half_cells,
                                uint32_t *sources, size_t source_cells, uint16_t *faces, size_t face_cells);

/* Reads an overlay file of version 1, 2 or 3 into the tables; where a version has no third source or label it is 0. */
bonnetewe_answer bonnetewe_read(const uint8_t *file, size_t file_length, int64_t *vertices, size_t vertex_cells,
                                uint16_t *halves, size_t half_cells, uint32_t *sources, size_t source_cells,
                                uint16_t *faces, size_t face_cells);

/* Writes the overlay file of counts and tables, of version 3, into the buffer; past the file the buffer is 0. It is refused, with map 0, in this order:
 *    3, place 0     a count over its number (1,000, 2,000, 1,334), or more rows than a table has
 *    5, place v     vertex v: X or Y does not fit six bytes, or D four without a sign, or its last cell is not its least outgoing half-edge
 *   21, place k     edge k is not sound: its ends not two vertices in order, no source, or a source cell of 65,536 and more; a follower that does not leave where its half-edge arrives,
 *                   or that follows another too; a face that is none; a twin or a predecessor that does not fit
 *   11, place 4     the buffer is shorter than 11 + 16 per vertex + 18 per edge + 10 per face */
bonnetewe_answer bonnetewe_write(uint16_t vertex_count, uint16_t edge_count, uint16_t face_count,
                                 const int64_t *vertices, size_t vertex_cells, const uint16_t *halves, size_t half_cells,
                                 const uint32_t *sources, size_t source_cells, const uint16_t *faces, size_t face_cells,
                                 uint8_t *buffer, size_t buffer_length);

/* Edge k of the tables of half-edges and sources, whatever they hold: its kind and ends, and its kind and sources. */
bonnetewe_edge_record bonnetewe_edge_ends(const uint16_t *halves, size_t half_cells, const uint32_t *sources, size_t source_cells, size_t k);
bonnetewe_edge_record bonnetewe_edge_sources(const uint16_t *halves, size_t half_cells, const uint32_t *sources, size_t source_cells, size_t k);

/* The height of tide by a zone's rule and both readings. BONNETEWE_RATIO has the ratio a, from 0.25 to 4, of the first gauge; BONNETEWE_WEIGHTS (and any other
 * kind but BONNETEWE_NO_RULE) the weights a and b, from 0 to 1, of both. What the kind does not use is not looked at. Done with the nearest whole millimetre,
 * halves away from zero, of the height that bonnetewe_tide_height has before rounding (0 where it is refused). Refused with map 0 and place 0: 14 for no rule, 15
 * for a ratio or weight out of its range or not a number, 16 for a reading missing or beyond 20,000 either way, in that order. */
bonnetewe_answer bonnetewe_tide(uint16_t kind, double a, double b, int32_t first, int32_t second);
double bonnetewe_tide_height(uint16_t kind, double a, double b, int32_t first, int32_t second);

/* Counts the soundings of a list by zone and block. In the list each sounding is four bytes, x and y as signed 16-bit, low byte first. The table labels gets a row of two
 * cells for each pair that occurs, zone then block (0 is no zone, or no block), sorted by pair; counts gets how often each occurs, in the same order, 1,334 pairs at most. The first
 * cell of read, where it has one, gets the number of edges that the looks read, over all soundings and both maps. Past these all is 0; where it is refused, all three tables are all 0. Refused in
 * this order: as bonnetewe_check refuses the zones (map 1), then the blocks (map 2); then with map 0
 *   12, place 0     the list's length is not a multiple of 4, or it holds more than 65,535 soundings
 *   13, place i     sounding i, counted from 0, is the first with a coordinate beyond 16,000 either way
 *   11, place 6     there are more than 1,334 pairs, or more than labels and counts have rows for */
bonnetewe_answer bonnetewe_soundings(const uint8_t *zones, size_t zones_length, const uint8_t *blocks, size_t blocks_length,
                                     const uint8_t *list, size_t list_length, uint16_t *labels, size_t label_cells,
                                     uint32_t *counts, size_t count_cells, uint32_t *read, size_t read_cells);

/* The same in three steps, for a list that comes in batches: where the count stands goes in and comes back by value. The maps are checked once, at the beginning. A batch is any bytes, of any length: four bytes that
 * are parted by a cut are one sounding. Whatever the cuts, bonnetewe_soundings_close answers what bonnetewe_soundings answers for all batches end to end, and leaves the same in the lent tables; all refusals are told there. A count that no
 * such calls gave is told as 12, place 0, unless it says that it is refused already. */
struct bonnetewe_progress {
    size_t soundings;
    size_t far;
    size_t entries;
    size_t rest;
    uint32_t read;
    uint16_t bad;
    uint16_t number;
    uint16_t map;
    uint16_t place;
    uint16_t other;
};

struct bonnetewe_count {
    int16_t rails[4 * 300];
    int16_t rails2[4 * 300];
    uint16_t easts[300];
    uint16_t easts2[300];
    uint16_t labels[2 * 1334];
    uint32_t counts[1334];
    uint8_t bytes[4];
    size_t edges;
    size_t edges2;
    struct bonnetewe_progress progress;
};

struct bonnetewe_count bonnetewe_soundings_begin(const uint8_t *zones, size_t zones_length, const uint8_t *blocks, size_t blocks_length);
struct bonnetewe_count bonnetewe_soundings_add(struct bonnetewe_count count, const uint8_t *batch, size_t batch_length);
bonnetewe_answer bonnetewe_soundings_close(struct bonnetewe_count count, uint16_t *labels, size_t label_cells,
                                           uint32_t *counts, size_t count_cells, uint32_t *read, size_t read_cells);

/* The year, in three steps: the state goes in and comes back by value. In its table are rows of zone, block, sheets, faces and the last file's number, by pair. */
struct bonnetewe_sums {
    size_t pairs;
    uint32_t gaps;
    uint16_t files;
    uint16_t bad;
};

struct bonnetewe_year {
    uint32_t rows[5 * 500];
    struct bonnetewe_sums sums;
};

struct bonnetewe_year bonnetewe_year_begin(void);

/* One overlay file more, of any bytes. */
struct bonnetewe_year bonnetewe_year_add(struct bonnetewe_year year, const uint8_t *file, size_t file_length);

/* What comes of the files with two lists of names: done with the number of pairs, the rows of the table that count, and the gaps; or refused with 17 to 20. */
bonnetewe_answer bonnetewe_year_close(struct bonnetewe_year year, const uint8_t *zone_names, size_t zone_names_length,
                                      const uint8_t *block_names, size_t block_names_length);

static inline unsigned bonnetewe_year_pairs(bonnetewe_answer a)
{
    return a >> 16 & 65535;
}

static inline unsigned long bonnetewe_year_gaps(bonnetewe_answer a)
{
    return a >> 32;
}

#ifdef __cplusplus
}
#endif

#endif
