/* The fast overlay: the same job and the same tables as the plain one, in C as one would write it without proofs and with the time in view. */
#ifndef FAST_H
#define FAST_H

#include "../plain/plain.h"

struct plain_answer fast_overlay(const uint8_t *zones, size_t zones_length, const uint8_t *blocks, size_t blocks_length,
                                 struct plain_tables *tables);

#endif
