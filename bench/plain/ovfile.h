/* Overlay files in plain C: the reader takes versions 1, 2 and 3, the writer writes 3. The tables are those of plain.h, with a third source and a third label. */
#ifndef OVFILE_H
#define OVFILE_H

#include "plain.h"

/* An overlay file: its counts, the maps that have sources and labels, the bytes of X or Y, and where its vertices, edges and faces stand. */
struct overlay {
    int vertices, edges, faces, maps, wide;
    const uint8_t *vertex, *edge, *face;
};

/* The answer's number is 0 if the reader takes the file, and the overlay is filled. */
struct plain_answer open_overlay(const uint8_t *file, size_t length, struct overlay *o);

/* Number i of face f: its labels, its least outer half-edge, its hole walks. */
int face_field(const struct overlay *o, int f, int i);

/* Fills the tables, or clears them where the file is refused. */
struct plain_answer plain_read(const uint8_t *file, size_t length, struct plain_tables *tables);

/* Number is 0, and the length is that of the file; or number and place say why the tables were refused. */
struct plain_file {
    uint16_t number, place;
    size_t length;
};

/* Writes the file of counts and tables; past it the buffer is 0, and where it is refused all of it. */
struct plain_file plain_write(int vertices, int edges, int faces, const struct plain_tables *tables, uint8_t *buffer, size_t room);

#endif
