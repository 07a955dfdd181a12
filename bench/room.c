/* room FOLDER...: for each sheet of two or three maps the bytes of stack that one overlay takes, and the bytes that it copies by `memcpy` and `memmove` and clears by `memset`. The
 * stack below is painted before the call; what is no longer painted after it was used. The compiler's calls to the three functions come here, so they are counted;
 * what it copies in registers is not. */
#include <stdio.h>
#include <string.h>

#include "bonnetewe.h"
#include "files.h"

enum { ROOM = 2 * 1024 * 1024, PAINT = 0xa5 };

static int64_t vertices[BONNETEWE_VERTEX_CELLS];
static uint16_t halves[BONNETEWE_HALF_CELLS];
static uint32_t sources[BONNETEWE_SOURCE_CELLS];
static uint16_t faces[BONNETEWE_FACE_CELLS];
static struct file zones, blocks, bed;
static unsigned long copied, copies, cleared;

void *memcpy(void *restrict to, const void *restrict from, size_t n)
{
    volatile unsigned char *t = to;
    const volatile unsigned char *f = from;

    copied += n, copies++;
    for (size_t i = 0; i < n; i++)
        t[i] = f[i];
    return to;
}

void *memmove(void *to, const void *from, size_t n)
{
    volatile unsigned char *t = to;
    const volatile unsigned char *f = from;

    copied += n, copies++;
    if (t < f)
        for (size_t i = 0; i < n; i++)
            t[i] = f[i];
    else
        for (size_t i = n; i > 0; i--)
            t[i - 1] = f[i - 1];
    return to;
}

void *memset(void *to, int byte, size_t n)
{
    volatile unsigned char *t = to;

    cleared += n;
    for (size_t i = 0; i < n; i++)
        t[i] = byte;
    return to;
}

static __attribute__((noinline)) void paint(void)
{
    volatile unsigned char below[ROOM];

    for (size_t i = 0; i < ROOM; i++)
        below[i] = PAINT;
}

/* The bytes from the deepest one that is not painted. */
static __attribute__((noinline)) size_t used(void)
{
    volatile unsigned char below[ROOM];
    size_t i = 0;

    while (i < ROOM && below[i] == PAINT)
        i++;
    return ROOM - i;
}

static __attribute__((noinline)) bonnetewe_answer lay(void)
{
    return bonnetewe_overlay(zones.bytes, zones.length, blocks.bytes, blocks.length, bed.bytes, bed.length, vertices,
                             BONNETEWE_VERTEX_CELLS, halves, BONNETEWE_HALF_CELLS, sources, BONNETEWE_SOURCE_CELLS, faces,
                             BONNETEWE_FACE_CELLS);
}

int main(int count, char **words)
{
    printf("%-12s %8s %6s %6s %9s %9s %7s %9s\n", "sheet", "vertices", "edges", "faces", "stack", "copied", "copies", "cleared");
    for (int i = 1; i < count; i++) {
        char *name = strrchr(words[i], '/');
        size_t deepest;
        bonnetewe_answer a;

        load_sheet(words[i], &zones, &blocks);
        load_bed(words[i], &bed);
        paint();
        copied = copies = cleared = 0;
        a = lay();
        deepest = used();
        printf("%-12s %8u %6u %6u %9lu %9lu %7lu %9lu\n", name ? name + 1 : words[i], (unsigned)bonnetewe_vertices(a),
               (unsigned)bonnetewe_edges(a), (unsigned)bonnetewe_faces(a), (unsigned long)deepest, copied, copies, cleared);
    }
    return 0;
}
