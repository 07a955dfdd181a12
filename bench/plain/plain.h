/* The plain overlay: the same job as the proved one with an empty third map, in C as one would write it without proofs.
 *
 * The tables and their rows are those of the proved overlay. A table's length is given in numbers, not in rows:
 *   vertices   4 to a row: X, Y, D, least outgoing half-edge
 *   halves     5 to a row: origin, twin, follower, predecessor, face
 *   sources    3 to a row: edge number + 1 or 0, in the first and in the second map, and 0
 *   faces      5 to a row: two labels, 0, least half-edge, hole walks
 */
#ifndef PLAIN_H
#define PLAIN_H

#include <stddef.h>
#include <stdint.h>

enum { SOURCE_WIDTH = 3, FACE_WIDTH = 5 };

struct plain_tables {
    int64_t *vertices;
    uint16_t *halves;
    uint32_t *sources;
    uint16_t *faces;
    size_t vertex_cells, half_cells, source_cells, face_cells;
};

/* number is 0 and the counts are set; or number, map and place say why the overlay was refused. */
struct plain_answer {
    uint16_t number, map, place;
    uint16_t vertices, edges, faces;
};

struct plain_answer plain_overlay(const uint8_t *zones, size_t zones_length, const uint8_t *blocks, size_t blocks_length,
                                  struct plain_tables *tables);

/* The same without the edges that have the same labels on both sides. */
struct plain_answer plain_melt(const uint8_t *zones, size_t zones_length, const uint8_t *blocks, size_t blocks_length,
                               struct plain_tables *tables);

#endif
