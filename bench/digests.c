/* digests [--melt | --fast] FOLDER...: the plain overlay's answer for FOLDER/zones.zmp and FOLDER/blocks.zmp, with the digest of its tables, as
 * `second digests` prints it (second/README.md); with --melt that of the melted tables, as `second melt-digests` does; with --fast the fast overlay's. Cells past the counts, and all cells
 * where it is refused, are held to 0. */
#include <stdio.h>
#include <string.h>

#include "fast/fast.h"
#include "files.h"
#include "plain/plain.h"

static int64_t vertices[4 * 1000];
static uint16_t halves[5 * 4000];
static uint32_t sources[SOURCE_WIDTH * 2000];
static uint16_t faces[FACE_WIDTH * 1334];

static uint64_t digest = 0xcbf29ce484222325;

/* Adds a number's bytes, low byte first. */
static void add(uint64_t number, int bytes)
{
    for (int i = 0; i < bytes; i++) {
        digest = (digest ^ (number & 255)) * 0x100000001b3;
        number >>= 8;
    }
}

static void print_digest(struct plain_answer a)
{
    digest = 0xcbf29ce484222325;
    add(a.vertices, 2);
    add(a.edges, 2);
    add(a.faces, 2);
    for (int i = 0; i < 4 * a.vertices; i++)
        add(vertices[i], 8);
    for (int i = 0; i < 10 * a.edges; i++)
        add(halves[i], 2);
    for (int i = 0; i < SOURCE_WIDTH * a.edges; i++)
        add(sources[i], 4);
    for (int i = 0; i < FACE_WIDTH * a.faces; i++)
        add(faces[i], 2);
    printf("done %d %d %d %016llx\n", a.vertices, a.edges, a.faces, (unsigned long long)digest);
}

/* Whether all cells from the counts on are 0; all tables are full of ones before. */
static int rest_is_zero(struct plain_answer a)
{
    int64_t sum = 0;

    for (int i = 4 * a.vertices; i < 4 * 1000; i++)
        sum |= vertices[i];
    for (int i = 10 * a.edges; i < 5 * 4000; i++)
        sum |= halves[i];
    for (int i = SOURCE_WIDTH * a.edges; i < SOURCE_WIDTH * 2000; i++)
        sum |= sources[i];
    for (int i = FACE_WIDTH * a.faces; i < FACE_WIDTH * 1334; i++)
        sum |= faces[i];
    return sum == 0;
}

static void fill_tables(void)
{
    memset(vertices, 255, sizeof vertices);
    memset(halves, 255, sizeof halves);
    memset(sources, 255, sizeof sources);
    memset(faces, 255, sizeof faces);
}

int main(int count, char **words)
{
    static struct file zones, blocks;
    int melts = count > 1 && strcmp(words[1], "--melt") == 0, fast = count > 1 && strcmp(words[1], "--fast") == 0;

    for (int i = 1 + melts + fast; i < count; i++) {
        struct plain_tables tables = { vertices, halves, sources, faces, 4 * 1000, 5 * 4000, SOURCE_WIDTH * 2000, FACE_WIDTH * 1334 };
        char *name = strrchr(words[i], '/');

        load_sheet(words[i], &zones, &blocks);
        fill_tables();
        struct plain_answer a = (fast ? fast_overlay : melts ? plain_melt : plain_overlay)(zones.bytes, zones.length, blocks.bytes, blocks.length, &tables);
        printf("%s ", name ? name + 1 : words[i]);
        if (a.number == 0)
            print_digest(a);
        else
            printf("refused %d map %d place %d\n", a.number, a.map, a.place);
        if (!rest_is_zero(a))
            printf("the rest of a table is not 0\n");
    }
    return 0;
}
