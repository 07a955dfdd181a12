/* Mending a map file in plain C: vertices merged, edges without length and doubled edges dropped, then vertices without an edge. */
#ifndef MEND_H
#define MEND_H

#include <stddef.h>
#include <stdint.h>

/* number is 0, and the length of the mended file and the entries of the list are set; or number and place say why the file was refused. */
struct plain_mended {
    uint16_t number, place;
    uint16_t length, entries;
};

/* An entry of the list is two numbers, the step and the original number. Past the file and the list all is 0. */
struct plain_mended plain_mend(const uint8_t *file, size_t length, uint8_t *out, size_t room, uint16_t *list, size_t list_cells);

#endif
