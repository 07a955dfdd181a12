/* time [--melt] FOLDER...: for each sheet the seconds of one overlay by the plain C, by the fast C and by the proved library, the plain way, by the sweep, and as `bonnetewe_overlay` picks it, and the
 * ratios of each of these to the plain and to the fast C. All fill the same tables of full size, with the third map empty; no table is cleared before. With --melt the same of the overlay melted, by the plain C and by the proved library. What they
 * leave in the tables is held to each other. */
#include <stdio.h>
#include <string.h>

#include "bonnetewe.h"
#include "clock.h"
#include "fast/fast.h"
#include "files.h"

enum { PLAIN, FAST, PROVED, SWEPT, PICKED, WAYS };

/* A set of tables for each. */
static struct {
    int64_t vertices[BONNETEWE_VERTEX_CELLS];
    uint32_t sources[BONNETEWE_SOURCE_CELLS];
    uint16_t halves[BONNETEWE_HALF_CELLS], faces[BONNETEWE_FACE_CELLS];
    unsigned counted[3];
} laid[WAYS];
static struct file zones, blocks;

static void in_c(int way, struct plain_answer (*overlay)(const uint8_t *, size_t, const uint8_t *, size_t, struct plain_tables *))
{
    struct plain_tables tables = { laid[way].vertices, laid[way].halves, laid[way].sources, laid[way].faces, BONNETEWE_VERTEX_CELLS, BONNETEWE_HALF_CELLS,
                                   BONNETEWE_SOURCE_CELLS, BONNETEWE_FACE_CELLS };
    struct plain_answer a = overlay(zones.bytes, zones.length, blocks.bytes, blocks.length, &tables);

    laid[way].counted[0] = a.vertices, laid[way].counted[1] = a.edges, laid[way].counted[2] = a.faces;
}

static void plain(void)
{
    in_c(PLAIN, plain_overlay);
}

static void fast(void)
{
    in_c(FAST, fast_overlay);
}

static void plain_melted(void)
{
    in_c(PLAIN, plain_melt);
}

static void count(int way, bonnetewe_answer a)
{
    int done = bonnetewe_done(a);

    laid[way].counted[0] = done ? bonnetewe_vertices(a) : 0;
    laid[way].counted[1] = done ? bonnetewe_edges(a) : 0;
    laid[way].counted[2] = done ? bonnetewe_faces(a) : 0;
}

static void proved(int way, unsigned collects)
{
    count(way, bonnetewe_overlay_by(collects, zones.bytes, zones.length, blocks.bytes, blocks.length, bonnetewe_empty, sizeof bonnetewe_empty,
                                    laid[way].vertices, BONNETEWE_VERTEX_CELLS, laid[way].halves, BONNETEWE_HALF_CELLS, laid[way].sources,
                                    BONNETEWE_SOURCE_CELLS, laid[way].faces, BONNETEWE_FACE_CELLS));
}

static void proved_plain(void)
{
    proved(PROVED, BONNETEWE_PLAIN);
}

static void proved_swept(void)
{
    proved(SWEPT, BONNETEWE_SWEPT);
}

static void proved_picked(void)
{
    count(PICKED, bonnetewe_overlay(zones.bytes, zones.length, blocks.bytes, blocks.length, bonnetewe_empty, sizeof bonnetewe_empty, laid[PICKED].vertices,
                                    BONNETEWE_VERTEX_CELLS, laid[PICKED].halves, BONNETEWE_HALF_CELLS, laid[PICKED].sources, BONNETEWE_SOURCE_CELLS,
                                    laid[PICKED].faces, BONNETEWE_FACE_CELLS));
}

static void proved_melted(void)
{
    count(FAST, bonnetewe_melt(zones.bytes, zones.length, blocks.bytes, blocks.length, bonnetewe_empty, sizeof bonnetewe_empty, laid[FAST].vertices,
                               BONNETEWE_VERTEX_CELLS, laid[FAST].halves, BONNETEWE_HALF_CELLS, laid[FAST].sources, BONNETEWE_SOURCE_CELLS,
                               laid[FAST].faces, BONNETEWE_FACE_CELLS));
}

int main(int words_count, char **words)
{
    static void (*const overlays[])(void) = { plain, fast, proved_plain, proved_swept, proved_picked };
    static void (*const melts[])(void) = { plain_melted, proved_melted };
    int melt = words_count > 1 && strcmp(words[1], "--melt") == 0, ways = melt ? 2 : WAYS;

    printf("%-12s %8s %6s %6s %14s", melt ? "melted" : "sheet", "vertices", "edges", "faces", "plain C");
    if (melt)
        printf(" %14s %8s\n", "proved", "to plain");
    else
        printf(" %14s %14s %8s %7s %14s %8s %7s %14s %8s %7s\n", "fast C", "proved, plain", "to plain", "to fast", "proved, swept", "to plain", "to fast",
               "proved, picked", "to plain", "to fast");
    for (int i = 1 + melt; i < words_count; i++) {
        double least[WAYS];
        char *name = strrchr(words[i], '/');

        load_sheet(words[i], &zones, &blocks);
        take_turns(melt ? melts : overlays, ways, least);
        printf("%-12s %8u %6u %6u", name ? name + 1 : words[i], laid[0].counted[0], laid[0].counted[1], laid[0].counted[2]);
        for (int k = 0; k < ways; k++) {
            printf(" %12.9f s", least[k]);
            if (melt ? k > 0 : k > FAST)
                printf(" %8.2f", least[k] / least[PLAIN]);
            if (k > FAST)
                printf(" %7.2f", least[k] / least[FAST]);
        }
        printf("\n");
        for (int k = 1; k < ways; k++)
            if (memcmp(&laid[k], &laid[0], sizeof laid[0]) != 0) {
                printf("they differ\n");
                return 1;
            }
    }
    return 0;
}
