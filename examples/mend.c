/* mend IN: mends a map file, and prints what was done and the check's line of the mended file, as `mendmap` does, by the proved library called from C. Then it is mended
 * with a file and with a list too short by one, which must be refused and left all zero, and with no file at all. */
#include <stdio.h>

#include "bonnetewe.h"

/* one byte more tells a longer file */
static uint8_t file[BONNETEWE_MEND_BYTES + 1];
static uint8_t out[BONNETEWE_MEND_BYTES];
static uint16_t list[BONNETEWE_MEND_CELLS];

static size_t load(const char *path)
{
    FILE *from = fopen(path, "rb");
    size_t length = 0;

    if (from) {
        length = fread(file, 1, sizeof file, from);
        fclose(from);
    }
    return length;
}

static void print_refused(bonnetewe_answer a)
{
    printf("refused %u map %u place %u\n", bonnetewe_number(a), bonnetewe_map(a), bonnetewe_place(a));
}

static void print(bonnetewe_answer a)
{
    static const char *words[] = { "vertex merged", "edge without length dropped", "edge doubled dropped", "vertex without edge dropped" };

    for (unsigned i = 0; i < bonnetewe_entries(a); i++)
        printf("%u %u %s\n", list[2 * i], list[2 * i + 1], words[list[2 * i] - 1]);
    a = bonnetewe_check(out, bonnetewe_mended_length(a));
    if (bonnetewe_done(a))
        printf("ok %u %u\n", bonnetewe_vertices(a), bonnetewe_edges(a));
    else
        print_refused(a);
}

/* Refused with 11 at this place, with so many bytes and numbers lent, and they are all zero. */
static int refused(size_t length, size_t bytes, size_t cells, unsigned place)
{
    bonnetewe_answer a = bonnetewe_mend(file, length, out, bytes, list, cells);
    int good = bonnetewe_number(a) == 11 && bonnetewe_map(a) == 0 && bonnetewe_place(a) == place && bonnetewe_other(a) == 0;

    for (size_t i = 0; i < bytes; i++)
        good &= out[i] == 0;
    for (size_t i = 0; i < cells; i++)
        good &= list[i] == 0;
    return good;
}

int main(int count, char **words)
{
    size_t length = load(count > 1 ? words[1] : "");
    bonnetewe_answer a = bonnetewe_mend(file, length, out, BONNETEWE_MEND_BYTES, list, BONNETEWE_MEND_CELLS);
    int good = bonnetewe_number(bonnetewe_mend(NULL, 0, NULL, 0, NULL, 0)) == 1;

    if (!bonnetewe_done(a)) {
        print_refused(a);
        return good ? 0 : 1;
    }
    print(a);
    good &= refused(length, bonnetewe_mended_length(a) - 1, BONNETEWE_MEND_CELLS, 4);
    if (bonnetewe_entries(a) > 0)
        good &= refused(length, BONNETEWE_MEND_BYTES, 2 * bonnetewe_entries(a) - 1, 5);
    return good ? 0 : 1;
}
