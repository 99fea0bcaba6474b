/* examples/programs/gaussian3.dk as one fused loop: gaussian3 IN OUT */
#include "fused.h"

static const uint8_t *grey;
LINE(uint16_t, column);

MAKES_LINE blur(int y, uint8_t *restrict blurred) {
    const uint8_t *above = grey + (size_t)W * clamped(y - 1), *here = grey + (size_t)W * y, *below = grey + (size_t)W * clamped(y + 1);
    for (int x = 0; x < W; x++)
        column[x] = above[x] + 2 * here[x] + below[x];
    CLAMP(column, 1);
    for (int x = 0; x < W; x++)
        blurred[x] = (uint16_t)(column[x - 1] + 2 * column[x] + column[x + 1] + 8) >> 4;
}

int main(int count, char **words) {
    if (count != 3)
        stop("usage: gaussian3 IN OUT");
    grey = read_raster(opened(words[1], "rb"), 1);
    uint8_t *blurred = room_for((size_t)W * H);
    for (int y = 0; y < H; y++)
        blur(y, blurred + (size_t)W * y);
    FILE *file = opened(words[2], "wb");
    write_raster(file, blurred, 1, 255);
    closed(file);
}
