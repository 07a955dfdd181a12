/* The rows of bench/run for the operations besides the overlay: each has a function for the plain C and one for the proved library, and one that says whether both came to the same. */
#ifndef OPERATIONS_H
#define OPERATIONS_H

#include "bonnetewe.h"
#include "files.h"

/* An operation on a sheet, or on numbers of its own. `count` is how many things one run does, `things` what they are; a count of 0 is a row that is left out. */
struct operation {
    const char *name, *things;
    unsigned (*count)(void);
    void (*plain)(void), (*proved)(void);
    int (*agree)(void);
};

/* The sheet, and its overlay: tables, counts and file. */
struct sheet {
    struct file zones, blocks;
    int64_t vertices[BONNETEWE_VERTEX_CELLS];
    uint16_t halves[BONNETEWE_HALF_CELLS];
    uint32_t sources[BONNETEWE_SOURCE_CELLS];
    uint16_t faces[BONNETEWE_FACE_CELLS];
    bonnetewe_answer answer;
    uint8_t file[BONNETEWE_FILE_BYTES];
    size_t length;
};

extern struct sheet sheet;

/* What the plain C and the library say. */
extern uint64_t said[2];

static inline int said_same(void)
{
    return said[0] == said[1];
}

/* Many numbers as one. */
static inline uint64_t mix(uint64_t sum, uint64_t number)
{
    return (sum ^ number) * 0x100000001b3;
}

/* Each ends in a row without a name. */
extern const struct operation of_maps[], of_tables[], of_numbers[];

#endif
