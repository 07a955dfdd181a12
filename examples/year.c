/* year ZONE-NAMES BLOCK-NAMES FILE...: the year of overlay files without its names, `ZONE BLOCK SHEETS FACES` for each pair, then `gaps N`, or the line of what is refused, by the
 * proved library called from C. */
#include <stdio.h>

#include "bonnetewe.h"

static uint8_t file[BONNETEWE_FILE_BYTES + 1];
static uint8_t zones[65536], blocks[65536];

static size_t load(const char *path, uint8_t *bytes, size_t room)
{
    FILE *from = fopen(path, "rb");
    size_t length = 0;

    if (from) {
        length = fread(bytes, 1, room, from);
        fclose(from);
    }
    return length;
}

int main(int count, char **words)
{
    struct bonnetewe_year year = bonnetewe_year_begin();
    bonnetewe_answer a;

    if (count < 3)
        return 2;
    for (int i = 3; i < count; i++)
        year = bonnetewe_year_add(year, file, load(words[i], file, sizeof file));
    size_t z = load(words[1], zones, sizeof zones), b = load(words[2], blocks, sizeof blocks);
    a = bonnetewe_year_close(year, zones, z, blocks, b);
    if (!bonnetewe_done(a)) {
        printf("refused %u map %u place %u\n", bonnetewe_number(a), bonnetewe_map(a), bonnetewe_place(a));
        return 1;
    }
    for (unsigned r = 0; r < bonnetewe_year_pairs(a); r++) {
        const uint32_t *row = year.rows + 5 * r;

        printf("%u %u %u %u\n", (unsigned)row[0], (unsigned)row[1], (unsigned)row[2], (unsigned)row[3]);
    }
    printf("gaps %lu\n", bonnetewe_year_gaps(a));
    return 0;
}
