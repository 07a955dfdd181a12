/* levels ZONES BLOCKS LIST RULES FIRST SECOND: the water level at each sounding of a list, by the proved library called from C: the zone that the sounding lies in, that zone's tide rule, and
 * the readings of two gauges in whole millimetres (`-` for a missing one). RULES is text, a line for each zone: `ZONE ratio R`, `ZONE weights A B` or `ZONE none`; what comes after a `#` is not read.
 * Prints for each sounding `X Y ZONE BLOCK` and then `level MILLIMETRES`, `no zone`, or `refused N` of the tide; last `soundings N levels M`. A refusal of the maps or of the list is its one line.
 * The reading of the rules and the printing are not proved. The whole list goes in once, for its refusals; then each sounding by itself, as a list of one. */
#include <stdio.h>
#include <stdlib.h>
#include <string.h>

#include "bonnetewe.h"

struct rule {
    uint16_t kind;
    double a, b;
};

/* one byte more tells a longer file */
static uint8_t zones[BONNETEWE_MAP_BYTES + 1], blocks[BONNETEWE_MAP_BYTES + 1];
static uint8_t list[BONNETEWE_LIST_BYTES + 1];
static size_t zones_length, blocks_length, list_length;
static uint16_t labels[BONNETEWE_PAIR_CELLS];
static uint32_t counts[BONNETEWE_COUNT_CELLS];
static struct rule rules[65536];

static size_t load(const char *path, uint8_t *bytes, size_t room)
{
    FILE *from = fopen(path, "rb");
    size_t length = 0;

    if (from) {
        length = fread(bytes, 1, room, from);
        fclose(from);
    }
    return length;
}

/* A rule of a line; 0 if it is none. */
static int rule_of(const char *line)
{
    struct rule r = { BONNETEWE_NO_RULE, 0, 0 };
    char word[16], rest[2];
    int zone, at = 0;

    if (sscanf(line, "%d %15s%n", &zone, word, &at) != 2 || zone < 1 || zone > 65535)
        return 0;
    if (!strcmp(word, "ratio") && sscanf(line + at, "%lf%1s", &r.a, rest) == 1)
        r.kind = BONNETEWE_RATIO;
    else if (!strcmp(word, "weights") && sscanf(line + at, "%lf %lf%1s", &r.a, &r.b, rest) == 2)
        r.kind = BONNETEWE_WEIGHTS;
    else if (strcmp(word, "none") || sscanf(line + at, "%1s", rest) == 1)
        return 0;
    rules[zone] = r;
    return 1;
}

/* The rules of a file; the number of the first line that is none, or 0. A file that cannot be opened is line 1. */
static int read_rules(const char *path)
{
    FILE *from = fopen(path, "r");
    char line[256];

    if (!from)
        return 1;
    for (int n = 1; fgets(line, sizeof line, from); n++) {
        line[strcspn(line, "#")] = 0;
        if (line[strspn(line, " \t\r\n")] && !rule_of(line)) {
            fclose(from);
            return n;
        }
    }
    fclose(from);
    return 0;
}

/* A number that 32 bits do not hold is out of range as the nearest that they hold is. */
static int reading(const char *word, int32_t *x)
{
    char *end;
    long n = strtol(word, &end, 10);

    *x = n > 1000000 ? 1000000 : n < -1000000 ? -1000000 : n;
    if (!strcmp(word, "-"))
        *x = BONNETEWE_MISSING;
    else if (!*word || *end)
        return 0;
    return 1;
}

static int refused(bonnetewe_answer a)
{
    printf("refused %u map %u place %u\n", bonnetewe_number(a), bonnetewe_map(a), bonnetewe_place(a));
    return 1;
}

static bonnetewe_answer count(const uint8_t *from, size_t bytes, size_t pairs)
{
    return bonnetewe_soundings(zones, zones_length, blocks, blocks_length, from, bytes, labels, 2 * pairs, counts, pairs, NULL, 0);
}

static int signed_at(const uint8_t *from)
{
    return (int16_t)(from[0] | from[1] << 8);
}

/* The line of one sounding; 1 if it has a level. */
static int line(const uint8_t *at, int32_t first, int32_t second)
{
    count(at, 4, 1);
    struct rule r = rules[labels[0]];
    bonnetewe_answer a = bonnetewe_tide(r.kind, r.a, r.b, first, second);

    printf("%d %d %u %u ", signed_at(at), signed_at(at + 2), labels[0], labels[1]);
    if (labels[0] == 0)
        printf("no zone\n");
    else if (bonnetewe_done(a))
        printf("level %ld\n", bonnetewe_millimetres(a));
    else
        printf("refused %u\n", bonnetewe_number(a));
    return labels[0] != 0 && bonnetewe_done(a);
}

int main(int words_count, char **words)
{
    int32_t first, second;
    unsigned levels = 0;

    if (words_count != 7 || !reading(words[5], &first) || !reading(words[6], &second)) {
        fprintf(stderr, "levels ZONES BLOCKS LIST RULES FIRST SECOND; `-` is a missing reading\n");
        return 2;
    }
    int wrong = read_rules(words[4]);

    if (wrong) {
        fprintf(stderr, "%s: line %d is no rule\n", words[4], wrong);
        return 2;
    }
    zones_length = load(words[1], zones, sizeof zones);
    blocks_length = load(words[2], blocks, sizeof blocks);
    list_length = load(words[3], list, sizeof list);
    bonnetewe_answer a = count(list, list_length, BONNETEWE_COUNT_CELLS);

    if (!bonnetewe_done(a))
        return refused(a);
    for (size_t at = 0; at < list_length; at += 4)
        levels += line(list + at, first, second);
    printf("soundings %zu levels %u\n", list_length / 4, levels);
    return 0;
}
