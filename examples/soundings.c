/* soundings ZONES BLOCKS LIST: the soundings of a list by cell, `ZONE BLOCK COUNT` for each pair and then `read N`, or the line of what is refused, by the proved library called
 * from C. Then the list is counted with labels and with counts too short by one, and with a byte too few, which must be refused and all tables left zero; and with no table for the edges read. Last it is
 * counted in batches of at most 4,096 soundings, and of other lengths that part soundings, which must give the same answer and the same tables. */
#include <stdio.h>
#include <string.h>

#include "bonnetewe.h"

/* one byte more tells a longer file */
static uint8_t zones[BONNETEWE_MAP_BYTES + 1], blocks[BONNETEWE_MAP_BYTES + 1];
static uint8_t list[BONNETEWE_LIST_BYTES + 1];
static size_t zones_length, blocks_length, list_length;
static uint16_t labels[BONNETEWE_PAIR_CELLS];
static uint32_t counts[BONNETEWE_COUNT_CELLS];
static uint32_t edges[2];

static size_t load(const char *path, uint8_t *bytes, size_t room)
{
    FILE *from = fopen(path, "rb");
    size_t length = 0;

    if (from) {
        length = fread(bytes, 1, room, from);
        fclose(from);
    }
    return length;
}

/* With so many bytes of the list, and so many cells lent. */
static bonnetewe_answer count(size_t bytes, size_t pairs, size_t times, size_t read)
{
    return bonnetewe_soundings(zones, zones_length, blocks, blocks_length, list, bytes, labels, pairs, counts, times, edges, read);
}

/* The same in batches of so many bytes. */
static bonnetewe_answer count_batches(size_t bytes, size_t batch, size_t pairs, size_t times, size_t read)
{
    struct bonnetewe_count so_far = bonnetewe_soundings_begin(zones, zones_length, blocks, blocks_length);

    for (size_t at = 0; at < bytes; at += batch)
        so_far = bonnetewe_soundings_add(so_far, list + at, bytes - at < batch ? bytes - at : batch);
    return bonnetewe_soundings_close(so_far, labels, pairs, counts, times, edges, read);
}

/* Whether batches of so many bytes give the same answer and the same in all tables. */
static int same(size_t bytes, size_t batch, size_t pairs, size_t times)
{
    static uint16_t whole_labels[BONNETEWE_PAIR_CELLS];
    static uint32_t whole_counts[BONNETEWE_COUNT_CELLS];
    uint32_t whole_edges[2];
    bonnetewe_answer a = count(bytes, pairs, times, 2);

    memcpy(whole_labels, labels, sizeof labels);
    memcpy(whole_counts, counts, sizeof counts);
    memcpy(whole_edges, edges, sizeof edges);
    memset(labels, 1, 2 * pairs);
    memset(counts, 1, 4 * times);
    memset(edges, 1, sizeof edges);
    return count_batches(bytes, batch, pairs, times, 2) == a && memcmp(whole_labels, labels, sizeof labels) == 0
        && memcmp(whole_counts, counts, sizeof counts) == 0 && memcmp(whole_edges, edges, sizeof edges) == 0;
}

static void print(bonnetewe_answer a)
{
    for (unsigned i = 0; i < bonnetewe_pairs(a); i++)
        printf("%u %u %u\n", labels[2 * i], labels[2 * i + 1], (unsigned)counts[i]);
    printf("read %u\n", (unsigned)edges[0]);
}

/* Refused with this number at this place, and the lent cells are all zero. */
static int refused(size_t bytes, size_t pairs, size_t times, unsigned number, unsigned place)
{
    edges[0] = edges[1] = 1;
    bonnetewe_answer a = count(bytes, pairs, times, 2);
    int good = bonnetewe_number(a) == number && bonnetewe_map(a) == 0 && bonnetewe_place(a) == place && bonnetewe_other(a) == 0;

    for (size_t i = 0; i < pairs; i++)
        good &= labels[i] == 0;
    for (size_t i = 0; i < times; i++)
        good &= counts[i] == 0;
    return good && edges[0] == 0 && edges[1] == 0;
}

int main(int words_count, char **words)
{
    if (words_count != 4)
        return 2;
    zones_length = load(words[1], zones, sizeof zones);
    blocks_length = load(words[2], blocks, sizeof blocks);
    list_length = load(words[3], list, sizeof list);
    edges[1] = 1;
    bonnetewe_answer a = count(list_length, BONNETEWE_PAIR_CELLS, BONNETEWE_COUNT_CELLS, 2);
    int good = edges[1] == 0;

    good &= count_batches(list_length, 4 * 4096, BONNETEWE_PAIR_CELLS, BONNETEWE_COUNT_CELLS, 2) == a && edges[1] == 0;
    if (!bonnetewe_done(a)) {
        printf("refused %u map %u place %u\n", bonnetewe_number(a), bonnetewe_map(a), bonnetewe_place(a));
        return good && edges[0] == 0 ? 0 : 1;
    }
    print(a);
    good &= bonnetewe_soundings_counted(a) == list_length / 4;
    edges[0] = 1;
    good &= count(list_length, BONNETEWE_PAIR_CELLS, BONNETEWE_COUNT_CELLS, 0) == a && edges[0] == 1;
    if (bonnetewe_pairs(a) > 0) {
        good &= refused(list_length, 2 * bonnetewe_pairs(a) - 1, BONNETEWE_COUNT_CELLS, 11, 6);
        good &= refused(list_length, BONNETEWE_PAIR_CELLS, bonnetewe_pairs(a) - 1, 11, 6);
        good &= refused(list_length - 1, BONNETEWE_PAIR_CELLS, BONNETEWE_COUNT_CELLS, 12, 0);
    }
    static const size_t batches[] = {4 * 4096, 4 * 4096 - 1, 4, 7, 1};
    for (size_t i = 0; i < sizeof batches / sizeof *batches; i++) {
        good &= same(list_length, batches[i], BONNETEWE_PAIR_CELLS, BONNETEWE_COUNT_CELLS);
        good &= same(list_length / 2 + 1, batches[i], BONNETEWE_PAIR_CELLS, BONNETEWE_COUNT_CELLS);
        if (bonnetewe_pairs(a) > 0)
            good &= same(list_length, batches[i], 2 * bonnetewe_pairs(a) - 1, BONNETEWE_COUNT_CELLS);
    }
    return good ? 0 : 1;
}
