/* Numbers into rising order. */
#ifndef SORT_H
#define SORT_H

#include <stdint.h>

/* `aside` has room for as many. */
void sort_numbers(uint64_t *numbers, uint64_t *aside, int count);

#endif
