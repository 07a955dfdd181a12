#include <stdlib.h>
#include <string.h>

#include "map.h"
#include "soundings.h"

enum { SOUNDINGS = 65535 };

/* An edge that a look takes: its lower end, the way to its upper end, and the label to its east. A level one is counted, and never seen. */
struct rail {
    int32_t x, y, dx, dy;
    uint16_t east;
};

struct rails {
    int count;
    struct rail in[MAP_EDGES];
};

static int by_lower_end(const void *a, const void *b)
{
    const struct rail *r = a, *s = b;

    return r->y != s->y ? (r->y > s->y) - (r->y < s->y) : (r->x > s->x) - (r->x < s->x);
}

/* The edges of a map by lower end. The half-edge with the east at its left runs downward. */
static void lay_rails(const struct map *map, struct rails *rails)
{
    const struct net *n = &map->net;

    rails->count = n->edges;
    for (int k = 0; k < n->edges; k++) {
        const struct line *l = &n->line[k];
        bool falls = compare_points(&n->at[n->origin[2 * k]], &n->at[n->origin[2 * k + 1]]) > 0;

        rails->in[k] = (struct rail){ l->x, l->y, l->dx, l->dy, map->label[falls ? 2 * k : 2 * k + 1] };
    }
    qsort(rails->in, rails->count, sizeof rails->in[0], by_lower_end);
}

/* The label just east of (x, y) and just north of its height: that of the nearest edge to the west, an edge through the place among them. The products that compare
 * two edges have 47 bits. */
static int label_at(const struct rails *rails, int32_t x, int32_t y, uint32_t *read)
{
    const struct rail *best = NULL;
    int64_t best_left = 0;
    int i;

    for (i = 0; i < rails->count && rails->in[i].y <= y; i++) {
        const struct rail *r = &rails->in[i];
        if (y >= r->y + r->dy)
            continue;
        /* left / dy is the x of the edge at this height, less x */
        int64_t left = cross(r->dx, r->dy, x - r->x, y - r->y);
        if (left > 0)
            continue;
        if (best) {
            int64_t mine = left * best->dy, its = best_left * r->dy;
            if (mine < its || (mine == its && cross(r->dx, r->dy, best->dx, best->dy) <= 0))
                continue;
        }
        best = r;
        best_left = left;
    }
    *read += i;
    return best ? best->east : 0;
}

static int coordinate(const uint8_t *list, size_t at)
{
    return (int16_t)(list[at] | list[at + 1] << 8);
}

static bool too_far(int n)
{
    return n < -REACH || n > REACH;
}

/* Counts one more sounding with these labels in entries that stand in order; false if there is no room for another entry. */
static bool count_one(uint16_t zone, uint16_t block, int room, int *entries, uint16_t *labels, uint32_t *counts)
{
    int low = 0, high = *entries;

    while (low < high) {
        int middle = (low + high) / 2;
        bool before = labels[2 * middle] != zone ? labels[2 * middle] < zone : labels[2 * middle + 1] < block;

        if (before)
            low = middle + 1;
        else
            high = middle;
    }
    if (low < *entries && labels[2 * low] == zone && labels[2 * low + 1] == block) {
        counts[low]++;
        return true;
    }
    if (*entries >= room)
        return false;
    memmove(&labels[2 * low + 2], &labels[2 * low], 2 * (*entries - low) * sizeof labels[0]);
    memmove(&counts[low + 1], &counts[low], (*entries - low) * sizeof counts[0]);
    labels[2 * low] = zone;
    labels[2 * low + 1] = block;
    counts[low] = 1;
    ++*entries;
    return true;
}

static struct plain_cells refuse(int number, int map, int place)
{
    return (struct plain_cells){ .number = number, .map = map, .place = place };
}

/* Counts the list, whose soundings are all within the limit. */
static struct plain_cells count_list(const struct rails *rails, const uint8_t *list, size_t n, int room, uint16_t *labels, uint32_t *counts)
{
    struct plain_cells cells = { .soundings = n };
    int entries = 0;

    for (size_t i = 0; i < n; i++) {
        int x = coordinate(list, 4 * i), y = coordinate(list, 4 * i + 2);
        int zone = label_at(&rails[0], x, y, &cells.read), block = label_at(&rails[1], x, y, &cells.read);

        if (!count_one(zone, block, room, &entries, labels, counts))
            return refuse(11, 0, 6);
    }
    cells.entries = entries;
    return cells;
}

static struct plain_cells judge(const uint8_t *zones, size_t zones_length, const uint8_t *blocks, size_t blocks_length, const uint8_t *list, size_t list_length, int room,
                                uint16_t *labels, uint32_t *counts)
{
    static struct map map;
    static struct rails rails[2];

    for (int m = 0; m < 2; m++) {
        struct plain_answer fault = m == 0 ? load_map(zones, zones_length, &map) : load_map(blocks, blocks_length, &map);
        if (fault.number != 0)
            return refuse(fault.number, m + 1, fault.place);
        lay_rails(&map, &rails[m]);
    }
    if (list_length % 4 != 0 || list_length / 4 > SOUNDINGS)
        return refuse(12, 0, 0);
    for (size_t i = 0; i < list_length / 4; i++)
        if (too_far(coordinate(list, 4 * i)) || too_far(coordinate(list, 4 * i + 2)))
            return refuse(13, 0, i);
    return count_list(rails, list, list_length / 4, room, labels, counts);
}

static size_t smaller(size_t a, size_t b)
{
    return a < b ? a : b;
}

struct plain_cells plain_soundings(const uint8_t *zones, size_t zones_length, const uint8_t *blocks, size_t blocks_length, const uint8_t *list, size_t list_length,
                                   uint16_t *labels, size_t label_cells, uint32_t *counts, size_t count_cells)
{
    int room = smaller(FACES, smaller(label_cells / 2, count_cells));

    memset(labels, 0, label_cells * sizeof labels[0]);
    memset(counts, 0, count_cells * sizeof counts[0]);
    struct plain_cells cells = judge(zones, zones_length, blocks, blocks_length, list, list_length, room, labels, counts);
    if (cells.number != 0) {
        memset(labels, 0, label_cells * sizeof labels[0]);
        memset(counts, 0, count_cells * sizeof counts[0]);
    }
    return cells;
}
