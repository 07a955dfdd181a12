/* Soundings by cell in plain C: each sounding's label in each map, by looking west along edges that stand in the order of their lower ends.
 *
 * `list` has x and y of each sounding, signed 16 bits, low byte first. `labels` takes two labels to an entry, `counts` one number; their lengths are in numbers.
 */
#ifndef SOUNDINGS_H
#define SOUNDINGS_H

#include <stddef.h>
#include <stdint.h>

/* number is 0, and the entries, the soundings and the edges read are set; or number, map and place say why the list was refused. */
struct plain_cells {
    uint16_t number, map, place;
    uint16_t entries, soundings;
    uint32_t read;
};

struct plain_cells plain_soundings(const uint8_t *zones, size_t zones_length, const uint8_t *blocks, size_t blocks_length, const uint8_t *list, size_t list_length,
                                   uint16_t *labels, size_t label_cells, uint32_t *counts, size_t count_cells);

#endif
