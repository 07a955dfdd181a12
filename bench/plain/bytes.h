/* Numbers in files: low byte first. */
#ifndef BYTES_H
#define BYTES_H

#include <stddef.h>
#include <stdint.h>

static inline int u16_at(const uint8_t *bytes, size_t at)
{
    return bytes[at] | bytes[at + 1] << 8;
}

/* So many bytes, without a sign. */
static inline uint64_t number_at(const uint8_t *bytes, size_t at, int wide)
{
    uint64_t number = 0;

    for (int i = wide; i > 0; i--)
        number = number << 8 | bytes[at + i - 1];
    return number;
}

/* So many bytes, in two's complement. */
static inline int64_t signed_at(const uint8_t *bytes, size_t at, int wide)
{
    int spare = 64 - 8 * wide;

    return (int64_t)(number_at(bytes, at, wide) << spare) >> spare;
}

/* Stores so many bytes of a number and answers the place behind them. */
static inline size_t put_number(uint8_t *bytes, size_t at, uint64_t number, int wide)
{
    for (int i = 0; i < wide; i++) {
        bytes[at + i] = number & 255;
        number >>= 8;
    }
    return at + wide;
}

#endif
