/* cells: the corners of each cell of the sample sheet, from C++. A small test that the header is C++ too and that the library links with it; no part of the C++ library is used. */
extern "C" {
#include <stdio.h>
}

#include "bonnetewe.h"

static_assert(BONNETEWE_MAP_BYTES == 3209, "the longest map file");

/* The map file of a square whose inside has a label. */
struct Square {
    uint8_t bytes[9 + 4 * 4 + 8 * 4];

    Square(int low, int high, int label) : bytes{'Z', 'M', 'P', 1, 0, 4, 0, 4, 0}
    {
        const int corners[4][2] = {{low, low}, {high, low}, {high, high}, {low, high}};
        uint8_t *at = bytes + 9;

        for (auto &corner : corners)
            for (int c : corner)
                at = put(at, c);
        for (int k = 0; k < 4; k++) {
            const int fields[] = {k, (k + 1) % 4, label, 0};

            for (int field : fields)
                at = put(at, field);
        }
    }

private:
    static uint8_t *put(uint8_t *at, int number)
    {
        *at++ = static_cast<uint8_t>(number);
        *at++ = static_cast<uint8_t>(number >> 8);
        return at;
    }
};

static int64_t vertices[BONNETEWE_VERTEX_CELLS];
static uint16_t halves[BONNETEWE_HALF_CELLS];
static uint32_t sources[BONNETEWE_SOURCE_CELLS];
static uint16_t faces[BONNETEWE_FACE_CELLS];

int main()
{
    const Square zones(0, 4, 1), blocks(2, 6, 7);
    const bonnetewe_answer a =
        bonnetewe_overlay(zones.bytes, sizeof zones.bytes, blocks.bytes, sizeof blocks.bytes, bonnetewe_empty, sizeof bonnetewe_empty, vertices, BONNETEWE_VERTEX_CELLS,
                          halves, BONNETEWE_HALF_CELLS, sources, BONNETEWE_SOURCE_CELLS, faces, BONNETEWE_FACE_CELLS);

    if (!bonnetewe_done(a)) {
        printf("refused %u map %u place %u\n", bonnetewe_number(a), bonnetewe_map(a), bonnetewe_place(a));
        return 1;
    }
    for (unsigned f = 1; f < bonnetewe_faces(a); f++) {
        const uint16_t *row = faces + 5 * f;
        unsigned h = row[3];

        printf("face %u zone %u block %u:", f, row[0], row[1]);
        do {
            const unsigned v = halves[5 * h];

            printf(" (%g, %g)", bonnetewe_x(vertices, v), bonnetewe_y(vertices, v));
            h = bonnetewe_next(halves, h);
        } while (h != row[3]);
        printf("\n");
    }
    return 0;
}
