/* What is asked by itself, in plain C: how two edges meet, the height of tide, the record of an overlay edge. */
#ifndef ASKED_H
#define ASKED_H

#include <stddef.h>
#include <stdint.h>

/* number is 0, and the kind and the point are set: apart (0), touching (1), crossing (2), sharing a stretch (3); or number and place say why it was refused. */
struct plain_meeting {
    uint16_t number, place, kind;
    int64_t x, y, d;
};

/* Of the edge from the first corner to the second and that from the third to the fourth: x and y of each. */
struct plain_meeting plain_meet(const int16_t corners[8]);

/* number is 0, and the height before rounding and the whole millimetres are set; or number says why it was refused. */
struct plain_height {
    uint16_t number;
    int32_t millimetres;
    double height;
};

/* The rule's kind is 0 (none), 1 (the ratio a) or another (the weights a and b); a missing reading is INT32_MIN. */
struct plain_height plain_tide(uint16_t kind, double a, double b, int32_t first, int32_t second);

/* The maps that the edge came from (1, 2 and 4, added up; 0 where there is no such edge), its ends, its number in each map. */
struct plain_edge {
    uint16_t kind, lower, upper, number[3];
};

struct plain_edge plain_edge(const uint16_t *halves, size_t half_cells, const uint32_t *sources, size_t source_cells, size_t k);

#endif
