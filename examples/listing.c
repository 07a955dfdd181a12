/* listing [--melt] FOLDER [OUT.zov [BED.zmp]]: the listing of FOLDER/zones.zmp and FOLDER/blocks.zmp, with a third map where one is named, by the proved library called
 * from C; with --melt that of the cells melted together. The overlay is also written as an overlay file, to OUT.zov where that is named, and read back into the same tables, and only then listed. */
#include <stdio.h>
#include <string.h>

#include "../bench/files.h"
#include "bonnetewe.h"

static int64_t vertices[BONNETEWE_VERTEX_CELLS];
static uint16_t halves[BONNETEWE_HALF_CELLS];
static uint32_t sources[BONNETEWE_SOURCE_CELLS];
static uint16_t faces[BONNETEWE_FACE_CELLS];
static uint8_t buffer[BONNETEWE_FILE_BYTES];

static int refused(bonnetewe_answer a)
{
    printf("refused %u map %u place %u\n", bonnetewe_number(a), bonnetewe_map(a), bonnetewe_place(a));
    return 1;
}

static void list(bonnetewe_answer a)
{
    unsigned gaps = 0;

    printf("vertices %u edges %u faces %u\n", bonnetewe_vertices(a), bonnetewe_edges(a), bonnetewe_faces(a));
    for (unsigned f = 0; f < bonnetewe_faces(a); f++) {
        uint16_t *row = faces + 5 * f;

        printf("face %u %u %u ", f, row[0], row[1]);
        if (f == 0)
            printf("- %u\n", row[4]);
        else
            printf("%u %u\n", row[3], row[4]);
        gaps += f > 0 && row[0] == 0 && row[1] != 0;
    }
    printf("gaps %u\n", gaps);
}

static int save(const char *path, const uint8_t *bytes, size_t length)
{
    FILE *to = fopen(path, "wb");
    int good = to && fwrite(bytes, 1, length, to) == length;

    if (to)
        good = !fclose(to) && good;
    if (!good)
        fprintf(stderr, "%s cannot be written\n", path);
    return good;
}

int main(int count, char **words)
{
    static struct file zones, blocks, third;
    const uint8_t *bed = bonnetewe_empty;
    size_t bed_length = sizeof bonnetewe_empty;
    bonnetewe_answer a, written;
    int melts = count > 1 && strcmp(words[1], "--melt") == 0;

    count -= melts;
    words += melts;
    load_sheet(count > 1 ? words[1] : ".", &zones, &blocks);
    if (count > 3) {
        load_file(words[3], &third);
        bed = third.bytes;
        bed_length = third.length;
    }
    a = (melts ? bonnetewe_melt : bonnetewe_overlay)(zones.bytes, zones.length, blocks.bytes, blocks.length, bed, bed_length, vertices,
                                                     BONNETEWE_VERTEX_CELLS, halves, BONNETEWE_HALF_CELLS, sources, BONNETEWE_SOURCE_CELLS,
                                                     faces, BONNETEWE_FACE_CELLS);
    if (!bonnetewe_done(a))
        return refused(a);
    written = bonnetewe_write(bonnetewe_vertices(a), bonnetewe_edges(a), bonnetewe_faces(a), vertices, BONNETEWE_VERTEX_CELLS,
                              halves, BONNETEWE_HALF_CELLS, sources, BONNETEWE_SOURCE_CELLS, faces, BONNETEWE_FACE_CELLS,
                              buffer, BONNETEWE_FILE_BYTES);
    if (!bonnetewe_done(written))
        return refused(written);
    if (count > 2 && !save(words[2], buffer, bonnetewe_length(written)))
        return 2;
    a = bonnetewe_read(buffer, bonnetewe_length(written), vertices, BONNETEWE_VERTEX_CELLS, halves, BONNETEWE_HALF_CELLS, sources,
                       BONNETEWE_SOURCE_CELLS, faces, BONNETEWE_FACE_CELLS);
    if (!bonnetewe_done(a))
        return refused(a);
    list(a);
    return 0;
}
