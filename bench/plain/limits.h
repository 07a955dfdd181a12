/* The limits of maps and tables (01), for plain/ and fast/. */
#ifndef LIMITS_H
#define LIMITS_H

enum {
    MAP_VERTICES = 200,
    MAP_EDGES = 300,
    REACH = 16000,
    VERTICES = 1000,
    EDGES = 2000,
    FACES = 1334,
    NONE = 65535,
};

#endif
