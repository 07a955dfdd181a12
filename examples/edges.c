/* edges FILE...: the edges of overlay files, a line each, or the line of what a file is refused for, by the proved library called from C. Then the functions
 * of overlays are called with no table and no file, NULL and 0, and must refuse, or answer that there is no edge. */
#include <stdio.h>

#include "bonnetewe.h"

static int64_t vertices[BONNETEWE_VERTEX_CELLS];
static uint16_t halves[BONNETEWE_HALF_CELLS];
static uint32_t sources[BONNETEWE_SOURCE_CELLS];
static uint16_t faces[BONNETEWE_FACE_CELLS];
/* one byte more tells a longer file */
static uint8_t file[BONNETEWE_FILE_BYTES + 1];

static size_t load(const char *path)
{
    FILE *from = fopen(path, "rb");
    size_t length = 0;

    if (from) {
        length = fread(file, 1, sizeof file, from);
        fclose(from);
    }
    return length;
}

static void print_edge(size_t k)
{
    bonnetewe_edge_record ends = bonnetewe_edge_ends(halves, BONNETEWE_HALF_CELLS, sources, BONNETEWE_SOURCE_CELLS, k);
    bonnetewe_edge_record from = bonnetewe_edge_sources(halves, BONNETEWE_HALF_CELLS, sources, BONNETEWE_SOURCE_CELLS, k);

    printf("edge %u %u %u ", (unsigned)k, bonnetewe_edge_lower(ends), bonnetewe_edge_upper(ends));
    switch (bonnetewe_edge_kind(from)) {
    case 1:
        printf("first %u\n", bonnetewe_edge_first(from));
        break;
    case 2:
        printf("second %u\n", bonnetewe_edge_second(from));
        break;
    case 3:
        printf("both %u %u\n", bonnetewe_edge_first(from), bonnetewe_edge_second(from));
        break;
    case 4:
        printf("third %u\n", bonnetewe_edge_third(from));
        break;
    case 5:
        printf("first %u third %u\n", bonnetewe_edge_first(from), bonnetewe_edge_third(from));
        break;
    case 6:
        printf("second %u third %u\n", bonnetewe_edge_second(from), bonnetewe_edge_third(from));
        break;
    default:
        printf("all %u %u %u\n", bonnetewe_edge_first(from), bonnetewe_edge_second(from), bonnetewe_edge_third(from));
    }
}

static int beyond(size_t k)
{
    return bonnetewe_edge_ends(halves, BONNETEWE_HALF_CELLS, sources, BONNETEWE_SOURCE_CELLS, k) == 0 &&
           bonnetewe_edge_sources(halves, BONNETEWE_HALF_CELLS, sources, BONNETEWE_SOURCE_CELLS, k) == 0;
}

/* Lists a file's edges; says whether the numbers past them have none. */
static int list(const char *path)
{
    bonnetewe_answer a = bonnetewe_read(file, load(path), vertices, BONNETEWE_VERTEX_CELLS, halves, BONNETEWE_HALF_CELLS, sources,
                                        BONNETEWE_SOURCE_CELLS, faces, BONNETEWE_FACE_CELLS);

    if (!bonnetewe_done(a)) {
        printf("refused %u map %u place %u\n", bonnetewe_number(a), bonnetewe_map(a), bonnetewe_place(a));
        return 1;
    }
    for (size_t k = 0; k < bonnetewe_edges(a); k++)
        print_edge(k);
    return beyond(bonnetewe_edges(a)) && beyond((size_t)-1);
}

/* No tables and no files: 1, the file is too short; 3, a count over its table; no edge. */
static int nothing(void)
{
    return bonnetewe_number(bonnetewe_check(NULL, 0)) == 1 &&
           bonnetewe_number(bonnetewe_overlay(NULL, 0, NULL, 0, NULL, 0, NULL, 0, NULL, 0, NULL, 0, NULL, 0)) == 1 &&
           bonnetewe_number(bonnetewe_overlay_by(BONNETEWE_PLAIN, NULL, 0, NULL, 0, NULL, 0, NULL, 0, NULL, 0, NULL, 0, NULL, 0)) == 1 &&
           bonnetewe_number(bonnetewe_overlay_by(BONNETEWE_SWEPT, NULL, 0, NULL, 0, NULL, 0, NULL, 0, NULL, 0, NULL, 0, NULL, 0)) == 1 &&
           bonnetewe_number(bonnetewe_read(NULL, 0, NULL, 0, NULL, 0, NULL, 0, NULL, 0)) == 1 &&
           bonnetewe_number(bonnetewe_write(1, 0, 0, NULL, 0, NULL, 0, NULL, 0, NULL, 0, NULL, 0)) == 3 &&
           bonnetewe_edge_ends(NULL, 0, NULL, 0, 0) == 0 && bonnetewe_edge_sources(NULL, 0, NULL, 0, 0) == 0;
}

int main(int count, char **words)
{
    int good = 1;

    for (int i = 1; i < count; i++)
        good &= list(words[i]);
    return good && nothing() ? 0 : 1;
}
