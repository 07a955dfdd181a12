/* Files of a sheet, whole. A file that cannot be opened counts as a file of 0 bytes. */
#ifndef FILES_H
#define FILES_H

#include <stdint.h>
#include <stdio.h>

/* The longest map, 200 vertices and 300 edges, has 3,209 bytes; one byte more tells a longer file. */
struct file {
    size_t length;
    uint8_t bytes[3210];
};

static inline void load_file(const char *path, struct file *file)
{
    FILE *from = fopen(path, "rb");

    file->length = 0;
    if (from) {
        file->length = fread(file->bytes, 1, sizeof file->bytes, from);
        fclose(from);
    }
}

/* FOLDER/zones.zmp and FOLDER/blocks.zmp. */
static inline void load_sheet(const char *folder, struct file *zones, struct file *blocks)
{
    char path[4096];

    snprintf(path, sizeof path, "%s/zones.zmp", folder);
    load_file(path, zones);
    snprintf(path, sizeof path, "%s/blocks.zmp", folder);
    load_file(path, blocks);
}

/* FOLDER/bed.zmp, or the empty map where there is none. */
static inline void load_bed(const char *folder, struct file *bed)
{
    static const uint8_t empty[9] = { 'Z', 'M', 'P', 1 };
    char path[4096];

    snprintf(path, sizeof path, "%s/bed.zmp", folder);
    load_file(path, bed);
    if (bed->length == 0) {
        bed->length = sizeof empty;
        for (size_t i = 0; i < sizeof empty; i++)
            bed->bytes[i] = empty[i];
    }
}

#endif
