/* Points, directions, and lines in whole numbers. With corners up to 16,000 either way D is at most 2,048,000,000 and X and Y are within 16,000 D: the products
 * that compare two points, or two edges at the height of a point, have up to 78 bits and are taken in 128. All others fit 64. */
#ifndef GEOMETRY_H
#define GEOMETRY_H

#include <stdbool.h>
#include <stdint.h>

/* The point x / d, y / d in lowest terms, d > 0. */
struct point {
    int64_t x, y, d;
};

/* An input edge: its lower end and the direction to its upper end. */
struct line {
    int64_t x, y, dx, dy;
};

static inline int64_t cross(int64_t ax, int64_t ay, int64_t bx, int64_t by)
{
    return ax * by - ay * bx;
}

static inline int sign(int64_t n)
{
    return (n > 0) - (n < 0);
}

/* The order of a b and c d: below 0, 0 or above 0. */
static inline int compare_products(int64_t a, int64_t b, int64_t c, int64_t d)
{
    __int128 first = (__int128)a * b, second = (__int128)c * d;

    return (first > second) - (first < second);
}

/* Smaller y first, then smaller x: below 0, 0 or above 0. */
static inline int compare_points(const struct point *a, const struct point *b)
{
    int by_y = compare_products(a->y, b->d, b->y, a->d);

    return by_y != 0 ? by_y : compare_products(a->x, b->d, b->x, a->d);
}

/* Above 0 if p is left of the line, below 0 if it is right of it. */
static inline int64_t left_of(const struct line *l, const struct point *p)
{
    return cross(l->dx, l->dy, p->x - l->x * p->d, p->y - l->y * p->d);
}

/* Angles run from 0 (east) to just under 360 degrees. */
static inline bool smaller_angle(int64_t ax, int64_t ay, int64_t bx, int64_t by)
{
    bool a_down = ay < 0 || (ay == 0 && ax < 0);
    bool b_down = by < 0 || (by == 0 && bx < 0);

    return a_down != b_down ? b_down : cross(ax, ay, bx, by) > 0;
}

static inline int64_t least(int64_t a, int64_t b)
{
    return a < b ? a : b;
}

static inline int64_t most(int64_t a, int64_t b)
{
    return a > b ? a : b;
}

/* Whether the upright boxes round two edges have no common point. */
static inline bool boxes_apart(const struct line *a, const struct line *b)
{
    return a->y + a->dy < b->y || b->y + b->dy < a->y || most(a->x, a->x + a->dx) < least(b->x, b->x + b->dx)
           || most(b->x, b->x + b->dx) < least(a->x, a->x + a->dx);
}

#endif
