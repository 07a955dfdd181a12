/* soundings FOLDER...: for each sheet the seconds that 65,535 soundings anywhere in the box round its maps take by the plain C and, built with -DPROVED, by the proved
 * library, the soundings a second of each, and the ratio of the seconds. Both check the maps, look from each sounding and fill the same tables. */
#include <stdio.h>
#include <string.h>

#include "clock.h"
#include "files.h"
#include "plain/soundings.h"

enum { SOUNDINGS = 65535, ENTRIES = 1334 };

static struct file zones, blocks;
static uint8_t list[4 * SOUNDINGS];
static uint16_t labels[2 * ENTRIES];
static uint32_t counts[ENTRIES];
static struct plain_cells cells;

static void plain(void)
{
    cells = plain_soundings(zones.bytes, zones.length, blocks.bytes, blocks.length, list, sizeof list, labels, 2 * ENTRIES, counts, ENTRIES);
}

#ifdef PROVED
#include "bonnetewe.h"

static uint16_t others[2 * ENTRIES];
static uint32_t other_counts[ENTRIES], read_edges[1];

static void proved(void)
{
    bonnetewe_soundings(zones.bytes, zones.length, blocks.bytes, blocks.length, list, sizeof list, others, 2 * ENTRIES, other_counts, ENTRIES, read_edges, 1);
}

/* The same pairs, the same counts and as many edges read. */
static int agree(void)
{
    return memcmp(labels, others, sizeof labels) == 0 && memcmp(counts, other_counts, sizeof counts) == 0 && read_edges[0] == cells.read;
}
#endif

/* Widens a box by the corners of a map file that is sound. */
static void widen(const struct file *file, int box[4])
{
    int vertices = file->bytes[5] | file->bytes[6] << 8;

    for (int v = 0; v < vertices; v++)
        for (int c = 0; c < 2; c++) {
            const uint8_t *at = &file->bytes[9 + 4 * v + 2 * c];
            int n = (int16_t)(at[0] | at[1] << 8);

            box[2 * c] = n < box[2 * c] ? n : box[2 * c];
            box[2 * c + 1] = n > box[2 * c + 1] ? n : box[2 * c + 1];
        }
}

static uint64_t state;

/* The next of a row of numbers that look random, for each sheet the same ones. */
static uint32_t next(void)
{
    state = state * 6364136223846793005u + 1442695040888963407u;
    return state >> 33;
}

/* Soundings anywhere in the box round both maps. */
static void sound(void)
{
    int box[4] = { 32767, -32768, 32767, -32768 };

    state = 1;
    widen(&zones, box);
    widen(&blocks, box);
    for (int i = 0; i < SOUNDINGS; i++)
        for (int c = 0; c < 2; c++) {
            int n = box[2 * c] + (int)(next() % (uint32_t)(box[2 * c + 1] - box[2 * c] + 1));

            list[4 * i + 2 * c] = n & 255;
            list[4 * i + 2 * c + 1] = n >> 8 & 255;
        }
}

int main(int count, char **words)
{
#ifdef PROVED
    void (*const runs[])(void) = { plain, proved };
#else
    void (*const runs[])(void) = { plain };
#endif
    int ways = sizeof runs / sizeof runs[0];

    printf("%-12s %8s %10s %14s %10s %14s %10s %8s\n", "soundings", "pairs", "read", "plain C", "a second", "proved", "a second", "to plain");
    for (int i = 1; i < count; i++) {
        double least[2];
        char *name = strrchr(words[i], '/');

        load_sheet(words[i], &zones, &blocks);
        if (zones.length < 13 || blocks.length < 13)
            return 2;
        sound();
        take_turns(runs, ways, least);
        printf("%-12s %8d %10u", name ? name + 1 : words[i], cells.entries, cells.read);
        for (int k = 0; k < ways; k++)
            printf(" %12.9f s %10.0f", least[k], SOUNDINGS / least[k]);
#ifdef PROVED
        printf(" %8.2f", least[1] / least[0]);
        if (!agree()) {
            printf("\nthey differ\n");
            return 1;
        }
#endif
        printf("\n");
    }
    return 0;
}
