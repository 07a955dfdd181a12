/* operations FOLDER...: for each sheet, and each operation besides the overlay, the seconds of one run by the plain C and by the proved library, and their ratio; then those of the height of
 * tide. What both come to is held to each other. */
#include <stdio.h>
#include <string.h>

#include "clock.h"
#include "operations.h"

struct sheet sheet;
uint64_t said[2];

/* The overlay of the maps, and its file. */
static void lay(const char *folder)
{
    load_sheet(folder, &sheet.zones, &sheet.blocks);
    sheet.answer = bonnetewe_overlay(sheet.zones.bytes, sheet.zones.length, sheet.blocks.bytes, sheet.blocks.length, bonnetewe_empty,
                                     sizeof bonnetewe_empty, sheet.vertices, BONNETEWE_VERTEX_CELLS, sheet.halves, BONNETEWE_HALF_CELLS,
                                     sheet.sources, BONNETEWE_SOURCE_CELLS, sheet.faces, BONNETEWE_FACE_CELLS);
    bonnetewe_answer a = bonnetewe_write(bonnetewe_vertices(sheet.answer), bonnetewe_edges(sheet.answer), bonnetewe_faces(sheet.answer),
                                         sheet.vertices, BONNETEWE_VERTEX_CELLS, sheet.halves, BONNETEWE_HALF_CELLS, sheet.sources,
                                         BONNETEWE_SOURCE_CELLS, sheet.faces, BONNETEWE_FACE_CELLS, sheet.file, sizeof sheet.file);
    sheet.length = bonnetewe_length(a);
}

/* The rows of a list of operations; 0 where plain C and the library differ. */
static int print_rows(const struct operation *rows, const char *name)
{
    for (const struct operation *o = rows; o->name; o++) {
        void (*const runs[])(void) = { o->plain, o->proved };
        unsigned count = o->count();
        double least[2];

        if (count == 0)
            continue;
        take_turns(runs, 2, least);
        printf("%-13s %-12s %6u %-9s %12.9f s %12.9f s %8.2f\n", o->name, name, count, o->things, least[0], least[1], least[1] / least[0]);
        if (!o->agree()) {
            printf("they differ\n");
            return 0;
        }
    }
    return 1;
}

int main(int count, char **words)
{
    printf("%-13s %-12s %6s %-9s %14s %14s %8s\n", "operation", "sheet", "", "", "plain C", "proved", "to plain");
    for (int i = 1; i < count; i++) {
        char *slash = strrchr(words[i], '/'), *name = slash ? slash + 1 : words[i];

        lay(words[i]);
        if (!bonnetewe_done(sheet.answer))
            printf("%s is refused\n", name);
        else if (!print_rows(of_maps, name) || !print_rows(of_tables, name))
            return 1;
    }
    return print_rows(of_numbers, "-") ? 0 : 1;
}
