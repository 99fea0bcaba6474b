/* examples/pipelines/isp.dk as one fused loop: isp IN OUT */
#include "fused.h"

static const uint16_t *raw;
static const uint8_t *odd_x, *odd_y;
LINES(uint16_t, light, 8)
LINES(uint16_t, balanced, 8)
LINE(uint16_t, column);
LINE(uint16_t, far_column);
LINE(uint16_t, line);
LINE(uint16_t, far_line);
LINE(uint16_t, diagonal);
LINES(uint8_t, tone_red, 4)
LINES(uint8_t, tone_green, 4)
LINES(uint8_t, tone_blue, 4)
LINES(uint8_t, luma, 4)
LINE(uint16_t, luma_column);

/* The line that is this far away, on the other side of y if it is outside the frame. */
static int mirrored(int y, int far) { return in_frame(y + far) ? y + far : y - far; }

/* Sums of two pixels as far away on each side; at the ends both are the same one. */
MAKES_LINE sums(uint16_t *restrict to, const uint16_t *of, int far) {
    for (int x = far; x < W - far; x++)
        to[x] = of[x - far] + of[x + far];
    for (int x = 0; x < far; x++) {
        to[x] = 2 * of[x + far];
        to[W - 1 - x] = 2 * of[W - 1 - x - far];
    }
}

MAKES_LINE black_level(int y) {
    const uint16_t *from = raw + (size_t)W * y;
    uint16_t *restrict to = light(y);
    for (int x = 0; x < W; x++) {
        /* A sample of 16 bits has its high byte first. */
        uint16_t sample = __builtin_bswap16(from[x]);
        to[x] = sample < 64 ? 0 : sample - 64;
    }
    for (int k = 0; k < 2; k++) {
        to[k - 2] = to[k + 2];
        to[W + k] = to[W + k - 4];
    }
}

/* Dead pixels and the white balance. */
MAKES_LINE balance(int y) {
    const uint16_t *up = light(mirrored(y, -2)), *down = light(mirrored(y, 2)), *here = light(y);
    const uint8_t *odd_column = odd_x + (size_t)W * y, *odd_line = odd_y + (size_t)W * y;
    uint16_t *restrict to = balanced(y);
    for (int x = 0; x < W; x++) {
        int lowest = least(least(up[x], down[x]), least(here[x - 2], here[x + 2]));
        int highest = greatest(greatest(up[x], down[x]), greatest(here[x - 2], here[x + 2]));
        int clean = greatest(least(here[x], highest + 32), greatest(lowest - 32, 0));
        int gain = odd_column[x] != odd_line[x] ? 69 : odd_column[x] ? 97 : 117;
        to[x] = least((clean * gain + 32) >> 6, 1023);
    }
}

/* The least of five lines: near a power of 1/2.2. 5/2 is 160/64. */
static inline uint8_t tone(int value) {
    uint16_t pure = value;
    uint16_t dark = least((uint16_t)(5 * pure) >> 1, ((uint16_t)(46 * pure) >> 6) + 27);
    uint16_t middle = least(((uint16_t)(24 * pure) >> 6) + 49, ((uint16_t)(13 * pure) >> 6) + 84);
    return least(least(dark, middle), ((uint16_t)(9 * pure) >> 6) + 112);
}

/* The colours of a line, by the sums around each pixel: demosaic, colour matrix, tone curve. */
MAKES_LINE colours(int y) {
    const uint16_t *w = balanced(y);
    const uint8_t *odd_column = odd_x + (size_t)W * y, *odd_line = odd_y + (size_t)W * y;
    uint8_t *restrict to_red = tone_red(y), *restrict to_green = tone_green(y), *restrict to_blue = tone_blue(y), *restrict to_luma = luma(y);
    for (int x = 0; x < W; x++) {
        int16_t far = far_column[x] + far_line[x], base = 10 * w[x] - 2 * diagonal[x] + 8;
        int16_t here = 2 * (column[x] + line[x]) + 4 * w[x] - far + 4, facing = 4 * diagonal[x] + 12 * w[x] - 3 * far + 8;
        int16_t across = base + 8 * line[x] - 2 * far_line[x] + far_column[x], along = base + 8 * column[x] - 2 * far_column[x] + far_line[x];
        int same = odd_column[x] == odd_line[x];
        int green = same ? sat(here >> 3, 1023) : w[x];
        int of_line = same ? w[x] : sat(across >> 4, 1023), other = sat((same ? facing : along) >> 4, 1023);
        int red = odd_line[x] ? other : of_line, blue = odd_line[x] ? of_line : other;
        uint8_t r = tone(sat((410 * red - 115 * green - 39 * blue + 128) >> 8, 1023));
        uint8_t g = tone(sat((384 * green - 64 * red - 64 * blue + 128) >> 8, 1023));
        uint8_t b = tone(sat((410 * blue - 141 * green - 13 * red + 128) >> 8, 1023));
        to_red[x] = r;
        to_green[x] = g;
        to_blue[x] = b;
        to_luma[x] = (r + 2 * g + b) >> 2;
    }
}

MAKES_LINE demosaic(int y) {
    const uint16_t *up = balanced(mirrored(y, -1)), *down = balanced(mirrored(y, 1)), *w = balanced(y);
    const uint16_t *far_up = balanced(mirrored(y, -2)), *far_down = balanced(mirrored(y, 2));
    for (int x = 0; x < W; x++) {
        column[x] = up[x] + down[x];
        far_column[x] = far_up[x] + far_down[x];
    }
    sums(line, w, 1);
    sums(far_line, w, 2);
    sums(diagonal, column, 1);
    colours(y);
}

MAKES_LINE sharpen(int y, uint8_t *restrict red, uint8_t *restrict green, uint8_t *restrict blue) {
    const uint8_t *above = luma(clamped(y - 1)), *here = luma(y), *below = luma(clamped(y + 1));
    const uint8_t *from_red = tone_red(y), *from_green = tone_green(y), *from_blue = tone_blue(y);
    for (int x = 0; x < W; x++)
        luma_column[x] = above[x] + 2 * here[x] + below[x];
    CLAMP(luma_column, 1);
    for (int x = 0; x < W; x++) {
        int16_t blur = (uint16_t)(luma_column[x - 1] + 2 * luma_column[x] + luma_column[x + 1] + 8) >> 4;
        int16_t detail = here[x] - blur;
        red[x] = sat((int16_t)(from_red[x] + detail), 255);
        green[x] = sat((int16_t)(from_green[x] + detail), 255);
        blue[x] = sat((int16_t)(from_blue[x] + detail), 255);
    }
}

int main(int count, char **words) {
    if (count != 3)
        stop("usage: isp IN OUT");
    FILE *file = opened(words[1], "rb");
    raw = read_raster(file, 2);
    odd_x = read_raster(file, 1);
    odd_y = read_raster(file, 1);
    uint8_t *found[3];
    for (int k = 0; k < 3; k++)
        found[k] = room_for((size_t)W * H);
    for (int y = 0; y < H + 5; y++) {
        size_t at = (size_t)W * (y - 5);
        if (in_frame(y))
            black_level(y);
        if (in_frame(y - 2))
            balance(y - 2);
        if (in_frame(y - 4))
            demosaic(y - 4);
        if (in_frame(y - 5))
            sharpen(y - 5, found[0] + at, found[1] + at, found[2] + at);
    }
    file = opened(words[2], "wb");
    for (int k = 0; k < 3; k++)
        write_raster(file, found[k], 1, 255);
    closed(file);
}
