/* tide ratio RATIO FIRST, tide weights A B FIRST SECOND or tide none: the height of tide by a zone's rule, by the proved library called from C. Ratios and
 * weights are decimals, readings whole millimetres, `-` a missing one. Prints the height before rounding, its whole millimetres and the rule; or the refusal, and
 * what it means. tide records FILE: a line for each record of 32 bytes, as the program `tides` prints it. */
#include <stdio.h>
#include <stdlib.h>
#include <string.h>

#include "bonnetewe.h"

static const char *meaning(unsigned number)
{
    switch (number) {
    case 14:
        return "the zone has no tide rule";
    case 15:
        return "a ratio or weight is out of its range, or not a number";
    default:
        return "a reading that the rule uses is missing or out of its range";
    }
}

static uint64_t bits(double x)
{
    uint64_t n;

    memcpy(&n, &x, sizeof n);
    return n;
}

/* A rule and two readings, as the library takes them. */
struct question {
    uint16_t kind;
    double a, b;
    int32_t first, second;
};

static bonnetewe_answer ask(const struct question *q, double *height)
{
    *height = bonnetewe_tide_height(q->kind, q->a, q->b, q->first, q->second);
    return bonnetewe_tide(q->kind, q->a, q->b, q->first, q->second);
}

static int tell(const struct question *q)
{
    double height;
    bonnetewe_answer a = ask(q, &height);

    if (!bonnetewe_done(a)) {
        printf("refused %u map %u place %u\n%s\n", bonnetewe_number(a), bonnetewe_map(a), bonnetewe_place(a), meaning(bonnetewe_number(a)));
        return 1;
    }
    printf("height %.17g millimetres %ld ", height, bonnetewe_millimetres(a));
    if (q->kind == BONNETEWE_RATIO)
        printf("ratio %.17g\n", q->a);
    else
        printf("weights %.17g %.17g\n", q->a, q->b);
    return 0;
}

static void line(const struct question *q)
{
    double height;
    bonnetewe_answer a = ask(q, &height);

    if (!bonnetewe_done(a))
        printf("refused %u map %u place %u\n", bonnetewe_number(a), bonnetewe_map(a), bonnetewe_place(a));
    else if (q->kind == BONNETEWE_RATIO)
        printf("height %016lx %ld ratio %016lx\n", bits(height), bonnetewe_millimetres(a), bits(q->a));
    else
        printf("height %016lx %ld weights %016lx %016lx\n", bits(height), bonnetewe_millimetres(a), bits(q->a), bits(q->b));
}

static int records(const char *path)
{
    FILE *from = fopen(path, "rb");
    uint8_t r[32];

    if (!from)
        return 2;
    while (fread(r, 1, sizeof r, from) == sizeof r) {
        struct question q = { r[0], 0, 0, BONNETEWE_MISSING, BONNETEWE_MISSING };

        if (r[1])
            memcpy(&q.first, r + 4, 4);
        if (r[2])
            memcpy(&q.second, r + 8, 4);
        memcpy(&q.a, r + 16, 8);
        memcpy(&q.b, r + 24, 8);
        line(&q);
    }
    fclose(from);
    return 0;
}

static int decimal(const char *word, double *x)
{
    char *end;

    *x = strtod(word, &end);
    return *word && !*end;
}

/* A number that 32 bits do not hold is out of range as the nearest that they hold is. */
static int reading(const char *word, int32_t *x)
{
    char *end;
    long n = strtol(word, &end, 10);

    *x = n > 1000000 ? 1000000 : n < -1000000 ? -1000000 : n;
    if (!strcmp(word, "-"))
        *x = BONNETEWE_MISSING;
    else if (!*word || *end)
        return 0;
    return 1;
}

int main(int count, char **words)
{
    struct question q = { BONNETEWE_NO_RULE, 0, 0, BONNETEWE_MISSING, BONNETEWE_MISSING };
    const char *rule = count > 1 ? words[1] : "";

    if (!strcmp(rule, "none") && count == 2)
        return tell(&q);
    if (!strcmp(rule, "records") && count == 3)
        return records(words[2]);
    if (!strcmp(rule, "ratio") && count == 4 && decimal(words[2], &q.a) && reading(words[3], &q.first)) {
        q.kind = BONNETEWE_RATIO;
        return tell(&q);
    }
    if (!strcmp(rule, "weights") && count == 6 && decimal(words[2], &q.a) && decimal(words[3], &q.b) && reading(words[4], &q.first) &&
        reading(words[5], &q.second)) {
        q.kind = BONNETEWE_WEIGHTS;
        return tell(&q);
    }
    fprintf(stderr, "tide ratio RATIO FIRST, tide weights A B FIRST SECOND, tide none or tide records FILE; `-` is a missing reading\n");
    return 2;
}
