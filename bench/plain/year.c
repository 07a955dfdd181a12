#include <string.h>

#include "bytes.h"
#include "ovfile.h"
#include "year.h"

/* One more face with this pair. */
static void add_face(struct year *year, int zone, int block)
{
    int low = 0, high = year->pairs;

    while (low < high) {
        int middle = (low + high) / 2;
        const struct year_row *r = &year->row[middle];

        if (r->zone != zone ? r->zone < zone : r->block < block)
            low = middle + 1;
        else
            high = middle;
    }
    struct year_row *row = &year->row[low];
    if (low == year->pairs || row->zone != zone || row->block != block) {
        if (year->pairs == YEAR_PAIRS) {
            year->over = true;
            return;
        }
        memmove(row + 1, row, (year->pairs - low) * sizeof *row);
        *row = (struct year_row){ zone, block, 0, 0, -1 };
        year->pairs++;
    }
    row->sheets += row->last != year->files;
    row->last = year->files;
    row->faces++;
}

void year_add(struct year *year, const uint8_t *file, size_t length)
{
    struct overlay o;

    if (year->files < YEAR_FILES && !year->bad) {
        if (open_overlay(file, length, &o).number != 0) {
            year->bad = year->files + 1;
        } else {
            for (int f = 1; f < o.faces; f++) {
                int zone = face_field(&o, f, 0), block = face_field(&o, f, 1);

                year->gaps += zone == 0 && block != 0;
                add_face(year, zone, block);
            }
        }
    }
    year->files++;
}

static bool whole(const uint8_t *list, size_t length)
{
    size_t at = 0;

    while (at + 3 <= length)
        at += 3 + list[at + 2];
    return at == length;
}

int year_fault(const struct year *year, const uint8_t *zones, size_t zones_length, const uint8_t *blocks, size_t blocks_length)
{
    if (year->bad)
        return 17;
    if (year->files > YEAR_FILES)
        return 18;
    if (year->over)
        return 19;
    return whole(zones, zones_length) && whole(blocks, blocks_length) ? 0 : 20;
}

const uint8_t *year_name(const uint8_t *list, size_t length, uint16_t label, size_t *name_length)
{
    for (size_t at = 0; at < length; at += 3 + list[at + 2])
        if (u16_at(list, at) == label) {
            *name_length = list[at + 2];
            return list + at + 3;
        }
    *name_length = 0;
    return list;
}
