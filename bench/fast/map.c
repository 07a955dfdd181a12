#include "../plain/bytes.h"
#include "../plain/map.h"
#include "map.h"
#include "sort.h"

static uint64_t numbers[MAP_EDGES], aside[MAP_EDGES];

static struct plain_answer refuse(int number, int place)
{
    return (struct plain_answer){ .number = number, .place = place };
}

/* The least vertex that lies on an earlier one, or NONE: the keys in order, each with its vertex behind it. */
static int first_twice(const struct fast_map *map)
{
    int first = NONE;

    for (int v = 0; v < map->vertices; v++)
        numbers[v] = (uint64_t)map->key[v] << 16 | v;
    sort_numbers(numbers, aside, map->vertices);
    for (int i = 1; i < map->vertices; i++)
        if (numbers[i] >> 16 == numbers[i - 1] >> 16 && (int)(numbers[i] & 65535) < first)
            first = numbers[i] & 65535;
    return first;
}

/* Rules 5 and 6. */
static struct plain_answer load_vertices(const uint8_t *file, struct fast_map *map)
{
    map->vertices = u16_at(file, 5);
    for (int v = 0; v < map->vertices; v++) {
        int x = (int16_t)u16_at(file, 9 + 4 * v), y = (int16_t)u16_at(file, 11 + 4 * v);

        if (x < -REACH || x > REACH || y < -REACH || y > REACH)
            return refuse(5, v);
        map->at[v] = (struct point){ x, y, 1 };
        map->key[v] = (uint32_t)(y + REACH) << 15 | (uint32_t)(x + REACH);
    }
    int twice = first_twice(map);
    return twice != NONE ? refuse(6, twice) : refuse(0, 0);
}

/* Rule 7, and all that is kept of an edge. */
static struct plain_answer load_edges(const uint8_t *file, struct fast_map *map)
{
    map->edges = u16_at(file, 7);
    for (int k = 0; k < map->edges; k++) {
        size_t at = 9 + 4 * map->vertices + 8 * k;
        int from = u16_at(file, at), to = u16_at(file, at + 2);

        if (from >= map->vertices || to >= map->vertices || from == to)
            return refuse(7, k);
        bool rises = map->key[from] < map->key[to];
        int low = rises ? from : to, high = rises ? to : from;
        const struct point *p = &map->at[low], *q = &map->at[high];

        map->origin[2 * k] = from;
        map->origin[2 * k + 1] = to;
        map->label[2 * k] = u16_at(file, at + 4);
        map->label[2 * k + 1] = u16_at(file, at + 6);
        map->line[k] = (struct line){ p->x, p->y, q->x - p->x, q->y - p->y };
        map->down[k] = 2 * k + rises;
        map->lower[k] = map->key[low];
        map->upper[k] = map->key[high];
        map->west[k] = least(p->x, q->x);
        map->east[k] = most(p->x, q->x);
        numbers[k] = (uint64_t)map->lower[k] << 16 | k;
    }
    return refuse(0, 0);
}

/* The edges by lower end. */
static void order_edges(struct fast_map *map)
{
    sort_numbers(numbers, aside, map->edges);
    for (int i = 0; i < map->edges; i++)
        map->by_lower[i] = numbers[i] & 65535;
}

struct plain_answer fast_load(const uint8_t *file, size_t length, struct fast_map *map)
{
    struct plain_answer fault = refuse(form_fault(file, length), 0);

    if (fault.number == 0)
        fault = load_vertices(file, map);
    if (fault.number == 0)
        fault = load_edges(file, map);
    if (fault.number != 0)
        return fault;
    order_edges(map);
    return fast_check(map);
}

int fast_label_west(const struct fast_map *map, const struct point *p, int64_t dx, int64_t dy)
{
    int64_t y = p->y / p->d, best_left = 0;
    const struct line *best = NULL;
    int seen = 0;

    y -= y * p->d > p->y; /* the height, rounded down: corners have whole heights */
    for (int i = 0; i < map->edges; i++) {
        int k = map->by_lower[i];
        const struct line *l = &map->line[k];

        if (l->y > y)
            break;
        if (l->y + l->dy <= y)
            continue;
        int64_t left = left_of(l, p);
        if (left > 0 || (left == 0 && cross(dx, dy, l->dx, l->dy) <= 0))
            continue;
        if (best) {
            int nearer = compare_products(left, best->dy, best_left, l->dy);
            if (nearer < 0 || (nearer == 0 && cross(l->dx, l->dy, best->dx, best->dy) <= 0))
                continue;
        }
        best = l;
        best_left = left;
        seen = map->label[map->down[k]];
    }
    return seen;
}
