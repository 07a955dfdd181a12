/* The year in plain C: overlay files of any version go in one after another; pairs of zone and block stand in order, with the sheets and faces that have them. */
#ifndef YEAR_H
#define YEAR_H

#include <stdbool.h>
#include <stddef.h>
#include <stdint.h>

enum { YEAR_FILES = 400, YEAR_PAIRS = 500 };

struct year_row {
    uint16_t zone, block;
    int sheets, faces, last; /* the last sheet with this pair */
};

/* Starts as zeros. */
struct year {
    int files, pairs, gaps;
    int bad; /* the first bad file's number + 1, or 0 */
    bool over; /* there are more pairs than rows */
    struct year_row row[YEAR_PAIRS];
};

/* Takes the next file. */
void year_add(struct year *year, const uint8_t *file, size_t length);

/* Refusal 17 to 20 of the whole run, or 0. */
int year_fault(const struct year *year, const uint8_t *zones, size_t zones_length, const uint8_t *blocks, size_t blocks_length);

/* The name for a label in a list that does not end inside an entry; its length is 0 where there is none. */
const uint8_t *year_name(const uint8_t *list, size_t length, uint16_t label, size_t *name_length);

#endif
