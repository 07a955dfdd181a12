/* meets FILE: how two edges meet, a line for each 16 bytes of a file, eight signed numbers of 16 bits, low byte first, by the proved library called from C. Then it is asked
 * with a table of no cell, of one and of five, which must hold what they have room for. */
#include <stdio.h>

#include "bonnetewe.h"

static int16_t number(const uint8_t *bytes)
{
    return (int16_t)(bytes[0] | bytes[1] << 8);
}

static void print(const uint8_t *b)
{
    static const char *kinds[] = { "apart", "touching", "crossing", "sharing" };
    int64_t point[3];
    bonnetewe_answer a = bonnetewe_meet(number(b), number(b + 2), number(b + 4), number(b + 6), number(b + 8), number(b + 10),
                                        number(b + 12), number(b + 14), point, 3);

    if (!bonnetewe_done(a))
        printf("refused %u map %u place %u\n", bonnetewe_number(a), bonnetewe_map(a), bonnetewe_place(a));
    else if (point[2])
        printf("%s %lld %lld %lld\n", kinds[bonnetewe_kind(a)], (long long)point[0], (long long)point[1], (long long)point[2]);
    else
        printf("%s\n", kinds[bonnetewe_kind(a)]);
}

/* S1: (0,0)-(3,2) against (0,2)-(3,1) cross at 6/3, 4/3. */
static int lengths(void)
{
    int64_t p[5] = { 9, 9, 9, 9, 9 };
    int good = bonnetewe_kind(bonnetewe_meet(0, 0, 3, 2, 0, 2, 3, 1, NULL, 0)) == 2;

    good &= bonnetewe_kind(bonnetewe_meet(0, 0, 3, 2, 0, 2, 3, 1, p, 1)) == 2 && p[0] == 6 && p[1] == 9;
    good &= bonnetewe_kind(bonnetewe_meet(0, 0, 3, 2, 0, 2, 3, 1, p, 5)) == 2 && p[1] == 4 && p[2] == 3 && !p[3] && !p[4];
    good &= bonnetewe_number(bonnetewe_meet(0, 0, 0, 0, 0, 2, 3, 1, p, 5)) == 7 && !p[0] && !p[1] && !p[2];
    return good;
}

int main(int count, char **words)
{
    uint8_t bytes[16];
    size_t got = 0;
    FILE *from = count > 1 ? fopen(words[1], "rb") : NULL;

    while (from && (got = fread(bytes, 1, sizeof bytes, from)) == sizeof bytes)
        print(bytes);
    if (got)
        printf("short\n");
    if (from)
        fclose(from);
    return from && lengths() ? 0 : 1;
}
