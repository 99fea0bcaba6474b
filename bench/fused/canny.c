/* examples/pipelines/canny.dk as one fused loop: canny IN OUT */
#include "fused.h"

enum { STEPS = 8, ACROSS = 0, DOWN, FALLING, RISING };

static const uint8_t *grey;
LINE(uint16_t, column);
LINES(uint8_t, smooth, 4)
LINE(int16_t, sum);
LINE(int16_t, rise);
LINES(uint16_t, strength, 4)
LINES(uint16_t, direction, 4)
LINES(uint8_t, weak, 16)
LINE(uint8_t, beside);
/* The edges after each step: of the last lines, and no pixel outside the frame is one. */
static uint8_t edges[STEPS + 1][4][PAD + W + PAD];
static const uint16_t no_strength[PAD + W + PAD];
static const uint8_t no_edge[PAD + W + PAD];

static const uint16_t *strength_of(int y) { return in_frame(y) ? strength(y) : no_strength + PAD; }

static const uint8_t *edge_of(int step, int y) { return in_frame(y) ? edges[step][y & 3] + PAD : no_edge + PAD; }

MAKES_LINE blur(int y) {
    const uint8_t *line[5];
    for (int k = 0; k < 5; k++)
        line[k] = grey + (size_t)W * clamped(y + k - 2);
    for (int x = 0; x < W; x++)
        column[x] = line[0][x] + line[4][x] + 4 * (line[1][x] + line[2][x] + line[3][x]) + 2 * line[2][x];
    CLAMP(column, 2);
    uint8_t *restrict to = smooth(y);
    for (int x = 0; x < W; x++)
        to[x] = (uint16_t)(column[x - 2] + column[x + 2] + 4 * (column[x - 1] + column[x] + column[x + 1]) + 2 * column[x] + 128) >> 8;
}

MAKES_LINE gradients(int y) {
    const uint8_t *above = smooth(clamped(y - 1)), *here = smooth(y), *below = smooth(clamped(y + 1));
    for (int x = 0; x < W; x++) {
        sum[x] = above[x] + 2 * here[x] + below[x];
        rise[x] = below[x] - above[x];
    }
    CLAMP(sum, 1);
    CLAMP(rise, 1);
    uint16_t *restrict to = strength(y), *restrict way = direction(y);
    for (int x = 0; x < W; x++) {
        int16_t gx = sum[x + 1] - sum[x - 1], gy = rise[x - 1] + 2 * rise[x] + rise[x + 1];
        int size_x = gx < 0 ? -gx : gx, size_y = gy < 0 ? -gy : gy, part = 53 * size_x;
        int diagonal = (gx < 0) == (gy < 0) ? FALLING : RISING;
        to[x] = size_x + size_y;
        way[x] = 128 * size_y < part ? ACROSS : 128 * size_y > part + 256 * size_x ? DOWN : diagonal;
    }
}

MAKES_LINE ridges(int y) {
    const uint16_t *above = strength_of(y - 1), *here = strength(y), *below = strength_of(y + 1), *way = direction(y);
    uint8_t *restrict is_weak = weak(y), *restrict is_edge = edges[0][y & 3] + PAD;
    for (int x = 0; x < W; x++) {
        uint16_t own = here[x], to = way[x];
        uint16_t earlier = to == ACROSS ? here[x - 1] : to == DOWN ? above[x] : to == FALLING ? above[x - 1] : above[x + 1];
        uint16_t later = to == ACROSS ? here[x + 1] : to == DOWN ? below[x] : to == FALLING ? below[x + 1] : below[x - 1];
        /* On an axis the later one may be as strong. */
        int is = (own > earlier) & (own + (to <= DOWN) > later);
        is_weak[x] = is & (own > 40);
        is_edge[x] = is & (own > 100);
    }
}

/* One step of hysteresis: a weak pixel beside an edge becomes one. */
MAKES_LINE step(int number, int y, uint8_t *restrict to) {
    const uint8_t *above = edge_of(number - 1, y - 1), *here = edge_of(number - 1, y), *below = edge_of(number - 1, y + 1), *is_weak = weak(y);
    for (int x = 0; x < W; x++)
        beside[x] = above[x] | here[x] | below[x];
    for (int x = 0; x < W; x++)
        to[x] = is_weak[x] & (beside[x - 1] | beside[x] | beside[x + 1]);
}

int main(int count, char **words) {
    if (count != 3)
        stop("usage: canny IN OUT");
    grey = read_raster(opened(words[1], "rb"), 1);
    uint8_t *found = room_for((size_t)W * H);
    for (int y = 0; y < H + 2 + STEPS; y++) {
        if (in_frame(y))
            blur(y);
        if (in_frame(y - 1))
            gradients(y - 1);
        if (in_frame(y - 2))
            ridges(y - 2);
        for (int number = 1; number <= STEPS; number++) {
            int line = y - 2 - number;
            if (in_frame(line))
                step(number, line, number == STEPS ? found + (size_t)W * line : edges[number][line & 3] + PAD);
        }
    }
    FILE *file = opened(words[2], "wb");
    write_raster(file, found, 1, 1);
    closed(file);
}
