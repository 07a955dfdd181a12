/* asks mends|meets|tides FILE, asks rewrite FILE OUT: the plain C's answers, as `second mend-answers`, `meets`, `tides` and `rewrite` print them (second/README.md). */
#include <stdio.h>
#include <string.h>

#include "plain/asked.h"
#include "plain/bytes.h"
#include "plain/mend.h"
#include "plain/ovfile.h"

enum { RECORD = 32, MISSING = -2147483647 - 1 };

static uint8_t file[1 << 24], out[65536];
static uint16_t list[65536];
static size_t length;

static void refused(int number, int place)
{
    printf("refused %d map 0 place %d", number, place);
}

static uint64_t add(uint64_t digest, int byte)
{
    return (digest ^ byte) * 0x100000001b3;
}

/* A pack: of each map file the bytes of the lent file, the numbers of the lent list, and its length. */
static void mends(void)
{
    size_t at = 2;

    for (int i = 0; i < u16_at(file, 0); i++) {
        size_t room = u16_at(file, at), cells = u16_at(file, at + 2), n = u16_at(file, at + 4);
        struct plain_mended a = plain_mend(file + at + 6, n, out, room, list, cells);
        uint64_t digest = 0xcbf29ce484222325;

        at += 6 + n;
        for (size_t k = 0; k < room; k++)
            digest = add(digest, out[k]);
        for (size_t k = 0; k < cells; k++)
            digest = add(add(digest, list[k] & 255), list[k] >> 8);
        printf("%d ", i);
        if (a.number != 0)
            refused(a.number, a.place);
        else
            printf("done %d %d", a.length, a.entries);
        printf(" %016llx\n", (unsigned long long)digest);
    }
}

static void meets(void)
{
    static const char *const kinds[] = { "apart", "touching", "crossing", "sharing" };

    for (size_t at = 0; at + 16 <= length; at += 16) {
        int16_t corners[8];

        for (int i = 0; i < 8; i++)
            corners[i] = u16_at(file, at + 2 * i);
        struct plain_meeting m = plain_meet(corners);
        if (m.number != 0)
            refused(m.number, m.place);
        else if (m.d != 0)
            printf("%s %lld %lld %lld", kinds[m.kind], (long long)m.x, (long long)m.y, (long long)m.d);
        else
            printf("%s", kinds[m.kind]);
        printf("\n");
    }
    if (length % 16 != 0)
        printf("short\n");
}

static double float_at(size_t at)
{
    uint64_t bits = number_at(file, at, 8);
    double x;

    memcpy(&x, &bits, sizeof x);
    return x;
}

static void tides(void)
{
    for (size_t at = 0; at + RECORD <= length; at += RECORD) {
        int kind = file[at];
        int32_t first = file[at + 1] ? signed_at(file, at + 4, 4) : MISSING, second = file[at + 2] ? signed_at(file, at + 8, 4) : MISSING;
        struct plain_height h = plain_tide(kind, float_at(at + 16), float_at(at + 24), first, second);
        uint64_t bits;

        memcpy(&bits, &h.height, sizeof bits);
        if (h.number != 0) {
            refused(h.number, 0);
        } else {
            printf("height %016llx %d %s %016llx", (unsigned long long)bits, h.millimetres, kind == 1 ? "ratio" : "weights",
                   (unsigned long long)number_at(file, at + 16, 8));
            if (kind != 1)
                printf(" %016llx", (unsigned long long)number_at(file, at + 24, 8));
        }
        printf("\n");
    }
}

/* Reads an overlay file and writes it again. */
static void rewrite(const char *to)
{
    static int64_t vertices[4 * 1000];
    static uint16_t halves[5 * 4000], faces[FACE_WIDTH * 1334];
    static uint32_t sources[SOURCE_WIDTH * 2000];
    struct plain_tables tables = { vertices, halves, sources, faces, 4 * 1000, 5 * 4000, SOURCE_WIDTH * 2000, FACE_WIDTH * 1334 };
    struct plain_answer a = plain_read(file, length, &tables);
    struct plain_file w = { .number = a.number, .place = a.place };

    if (a.number == 0)
        w = plain_write(a.vertices, a.edges, a.faces, &tables, out, sizeof out);
    if (w.number == 0) {
        FILE *into = fopen(to, "wb");

        printf("%d bytes", (int)w.length);
        if (into) {
            fwrite(out, 1, w.length, into);
            fclose(into);
        }
    } else {
        refused(w.number, w.place);
    }
    printf("\n");
}

int main(int count, char **words)
{
    FILE *from = count >= 3 ? fopen(words[2], "rb") : NULL;

    if (!from)
        return 2;
    length = fread(file, 1, sizeof file, from);
    fclose(from);
    if (strcmp(words[1], "mends") == 0)
        mends();
    else if (strcmp(words[1], "meets") == 0)
        meets();
    else if (strcmp(words[1], "tides") == 0)
        tides();
    else if (count == 4)
        rewrite(words[3]);
    return 0;
}
