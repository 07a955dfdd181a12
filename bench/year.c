/* year [-n TIMES] ZONE-NAMES BLOCK-NAMES FILE...: the year in plain C, as `second year` prints it; with -n so many times, of which the last is printed, and the seconds of
 * one to the error output. */
#include <stdio.h>
#include <stdlib.h>
#include <string.h>
#include <time.h>

#include "plain/year.h"

/* The longest overlay file has 65,351 bytes. */
static uint8_t zones[1 << 20], blocks[1 << 20], file[65536];
static struct year year;

static size_t load(const char *path, uint8_t *to, size_t room)
{
    FILE *from = fopen(path, "rb");
    size_t length = 0;

    if (from) {
        length = fread(to, 1, room, from);
        fclose(from);
    }
    return length;
}

static void print_year(size_t zones_length, size_t blocks_length)
{
    int fault = year_fault(&year, zones, zones_length, blocks, blocks_length);

    if (fault) {
        printf("refused %d map 0 place %d\n", fault, fault == 17 ? year.bad - 1 : 0);
        return;
    }
    for (int i = 0; i < year.pairs; i++) {
        const struct year_row *r = &year.row[i];
        size_t length;
        const uint8_t *name = r->zone ? year_name(zones, zones_length, r->zone, &length) : year_name(blocks, blocks_length, r->block, &length);

        printf("%d %d %d %d ", r->zone, r->block, r->sheets, r->faces);
        for (size_t k = 0; k < length; k++)
            printf("%c", name[k]);
        printf("\n");
    }
    printf("gaps %d\n", year.gaps);
}

int main(int count, char **words)
{
    bool timed = count > 2 && strcmp(words[1], "-n") == 0;
    int times = timed ? atoi(words[2]) : 1, first = timed ? 3 : 1;
    size_t zones_length = 0, blocks_length = 0;
    struct timespec start, end;

    if (count < first + 2)
        return 2;
    clock_gettime(CLOCK_MONOTONIC, &start);
    for (int turn = 0; turn < times; turn++) {
        memset(&year, 0, sizeof year);
        zones_length = load(words[first], zones, sizeof zones);
        blocks_length = load(words[first + 1], blocks, sizeof blocks);
        for (int i = first + 2; i < count; i++) {
            size_t length = load(words[i], file, sizeof file);
            year_add(&year, file, length);
        }
    }
    clock_gettime(CLOCK_MONOTONIC, &end);
    print_year(zones_length, blocks_length);
    if (timed)
        fprintf(stderr, "%.9f s\n", ((end.tv_sec - start.tv_sec) + (end.tv_nsec - start.tv_nsec) * 1e-9) / times);
    return 0;
}
