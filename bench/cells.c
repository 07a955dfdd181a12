/* cells PACK: the plain C's answer for each case of a pack of soundings, with the digest of the lent tables, as `second cells-answers --read` prints it
 * (second/README.md). */
#include <stdbool.h>
#include <stdio.h>

#include "plain/soundings.h"

enum { MOST = 65535 };

static uint8_t zones[MOST], blocks[MOST], list[4 * (MOST + 2)];
static uint16_t labels[MOST];
static uint32_t counts[MOST];

static uint64_t digest;

/* Adds a number's bytes, low byte first. */
static void add(uint64_t number, int bytes)
{
    for (int i = 0; i < bytes; i++) {
        digest = (digest ^ (number & 255)) * 0x100000001b3;
        number >>= 8;
    }
}

static size_t number(FILE *from)
{
    uint8_t bytes[2] = { 0, 0 };

    fread(bytes, 1, 2, from);
    return bytes[0] | bytes[1] << 8;
}

/* False where the list is longer than any of a pack. */
static bool answer(FILE *from)
{
    size_t a = number(from), b = number(from), n = number(from), m = number(from), low = number(from), k = low + number(from) * 65536;

    if (k > sizeof list)
        return false;
    fread(zones, 1, n, from);
    fread(blocks, 1, m, from);
    fread(list, 1, k, from);
    for (size_t i = 0; i < a; i++)
        labels[i] = 65535;
    for (size_t i = 0; i < b; i++)
        counts[i] = 4294967295;
    struct plain_cells c = plain_soundings(zones, n, blocks, m, list, k, labels, a, counts, b);
    if (c.number == 0)
        printf("done %d %d %u", c.entries, c.soundings, c.read);
    else
        printf("refused %d map %d place %d", c.number, c.map, c.place);
    digest = 0xcbf29ce484222325;
    for (size_t i = 0; i < a; i++)
        add(labels[i], 2);
    for (size_t i = 0; i < b; i++)
        add(counts[i], 4);
    printf(" %016llx\n", (unsigned long long)digest);
    return true;
}

int main(int count, char **words)
{
    FILE *from = count == 2 ? fopen(words[1], "rb") : NULL;

    if (!from)
        return 2;
    size_t cases = number(from);
    for (size_t i = 0; i < cases; i++) {
        printf("%d ", (int)i);
        if (!answer(from))
            return 2;
    }
    fclose(from);
    return 0;
}
