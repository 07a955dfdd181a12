#include "asked.h"
#include "limits.h"
#include "map.h"

#pragma STDC FP_CONTRACT OFF

enum { APART, TOUCHING, CROSSING, SHARING };

static int64_t gcd(int64_t a, int64_t b)
{
    while (b != 0) {
        int64_t rest = a % b;
        a = b;
        b = rest;
    }
    return a < 0 ? -a : a;
}

static struct line line_of(const int16_t *ends)
{
    struct line l = { ends[0], ends[1], ends[2] - ends[0], ends[3] - ends[1] };

    if (l.dy < 0 || (l.dy == 0 && l.dx < 0))
        l = (struct line){ ends[2], ends[3], -l.dx, -l.dy };
    return l;
}

static struct plain_meeting met(int kind, int64_t x, int64_t y, int64_t d)
{
    int64_t g = gcd(gcd(x, y), d);

    return (struct plain_meeting){ .kind = kind, .x = x / g, .y = y / g, .d = d / g };
}

/* Two edges on one line: the higher of the lower ends against the lower of the upper ends, in point order. */
static struct plain_meeting meet_along(const struct line *a, const struct line *b)
{
    struct point from[2] = { { a->x, a->y, 1 }, { b->x, b->y, 1 } };
    struct point to[2] = { { a->x + a->dx, a->y + a->dy, 1 }, { b->x + b->dx, b->y + b->dy, 1 } };
    const struct point *low = compare_points(&from[0], &from[1]) < 0 ? &from[1] : &from[0];
    const struct point *high = compare_points(&to[0], &to[1]) < 0 ? &to[0] : &to[1];
    int order = compare_points(low, high);

    if (order == 0)
        return met(TOUCHING, low->x, low->y, 1);
    return (struct plain_meeting){ .kind = order < 0 ? SHARING : APART };
}

struct plain_meeting plain_meet(const int16_t corners[8])
{
    for (int i = 0; i < 8; i++)
        if (beyond(corners[i]))
            return (struct plain_meeting){ .number = 5, .place = i / 4 };
    for (int i = 0; i < 2; i++)
        if (corners[4 * i] == corners[4 * i + 2] && corners[4 * i + 1] == corners[4 * i + 3])
            return (struct plain_meeting){ .number = 7, .place = i };
    struct line a = line_of(corners), b = line_of(corners + 4);
    if (boxes_apart(&a, &b))
        return (struct plain_meeting){ .kind = APART };
    int64_t d = cross(a.dx, a.dy, b.dx, b.dy);
    int64_t s = cross(b.x - a.x, b.y - a.y, b.dx, b.dy); /* s / d is the parameter on a, t / d that on b */
    int64_t t = cross(b.x - a.x, b.y - a.y, a.dx, a.dy);
    if (d == 0)
        return t == 0 ? meet_along(&a, &b) : (struct plain_meeting){ .kind = APART };
    if (d < 0)
        d = -d, s = -s, t = -t;
    if (s < 0 || s > d || t < 0 || t > d)
        return (struct plain_meeting){ .kind = APART };
    bool end = s == 0 || s == d || t == 0 || t == d;
    return met(end ? TOUCHING : CROSSING, a.x * d + s * a.dx, a.y * d + s * a.dy, d);
}

static bool readable(int32_t reading)
{
    return reading >= -20000 && reading <= 20000;
}

/* The nearest whole number, halves away from zero; the height is at most 80,000 either way. */
static int32_t nearest(double height)
{
    int32_t whole = height;
    double rest = height - whole;

    return whole + (rest >= 0.5) - (rest <= -0.5);
}

struct plain_height plain_tide(uint16_t kind, double a, double b, int32_t first, int32_t second)
{
    bool ratio = kind == 1, good = ratio ? a >= 0.25 && a <= 4 : a >= 0 && a <= 1 && b >= 0 && b <= 1;

    if (kind == 0)
        return (struct plain_height){ .number = 14 };
    if (!good)
        return (struct plain_height){ .number = 15 };
    if (!readable(first) || (!ratio && !readable(second)))
        return (struct plain_height){ .number = 16 };
    double height = a * first;
    if (!ratio)
        height += b * second;
    return (struct plain_height){ 0, nearest(height), height };
}

struct plain_edge plain_edge(const uint16_t *halves, size_t half_cells, const uint32_t *sources, size_t source_cells, size_t k)
{
    struct plain_edge e = { 0 };

    if (k >= half_cells / 10 || k >= source_cells / 3)
        return e;
    for (int m = 0; m < 3; m++) {
        uint32_t source = sources[3 * k + m];

        if (source > 65536)
            return (struct plain_edge){ 0 };
        e.kind |= (source != 0) << m;
        e.number[m] = source == 0 ? 0 : source - 1;
    }
    if (e.kind != 0)
        e.lower = halves[10 * k], e.upper = halves[10 * k + 5];
    return e;
}
