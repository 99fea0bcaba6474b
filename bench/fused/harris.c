/* examples/programs/harris.dk as one fused loop: harris IN OUT */
#include "fused.h"

static const uint8_t *grey;
LINE(int16_t, sum);
LINE(int16_t, rise);
LINES(int32_t, gxx, 4)
LINES(int32_t, gxy, 4)
LINES(int32_t, gyy, 4)
LINE(int32_t, column_xx);
LINE(int32_t, column_xy);
LINE(int32_t, column_yy);
LINE(int64_t, response);
LINES(int64_t, line_peak, 4)
LINES(uint8_t, is_peak, 4)

MAKES_LINE products(int y) {
    const uint8_t *above = grey + (size_t)W * clamped(y - 1), *here = grey + (size_t)W * y, *below = grey + (size_t)W * clamped(y + 1);
    int32_t *restrict xx = gxx(y), *restrict xy = gxy(y), *restrict yy = gyy(y);
    for (int x = 0; x < W; x++) {
        sum[x] = above[x] + 2 * here[x] + below[x];
        rise[x] = below[x] - above[x];
    }
    CLAMP(sum, 1);
    CLAMP(rise, 1);
    for (int x = 0; x < W; x++) {
        int16_t gx = sum[x + 1] - sum[x - 1], gy = rise[x - 1] + 2 * rise[x] + rise[x + 1];
        xx[x] = gx * gx;
        xy[x] = gx * gy;
        yy[x] = gy * gy;
    }
}

MAKES_LINE column(int32_t *restrict to, const int32_t *above, const int32_t *here, const int32_t *below) {
    for (int x = 0; x < W; x++)
        to[x] = above[x] + here[x] + below[x];
    CLAMP(to, 1);
}

/* The response, its peak along the line, and the first output, whose samples of 16 bits have the high byte first. */
MAKES_LINE responses(int y, uint16_t *restrict strength) {
    int up = clamped(y - 1), down = clamped(y + 1);
    column(column_xx, gxx(up), gxx(y), gxx(down));
    column(column_xy, gxy(up), gxy(y), gxy(down));
    column(column_yy, gyy(up), gyy(y), gyy(down));
    for (int x = 0; x < W; x++) {
        int64_t xx = column_xx[x - 1] + column_xx[x] + column_xx[x + 1];
        int64_t xy = column_xy[x - 1] + column_xy[x] + column_xy[x + 1];
        int64_t yy = column_yy[x - 1] + column_yy[x] + column_yy[x + 1];
        int64_t trace = xx + yy;
        response[x] = xx * yy - xy * xy - (trace * trace >> 4);
    }
    CLAMP(response, 1);
    int64_t *restrict peak = line_peak(y), *restrict before = line_peak(clamped(y - 1));
    uint8_t *restrict is = is_peak(y);
    for (int x = 0; x < W; x++) {
        int64_t side = response[x - 1] > response[x + 1] ? response[x - 1] : response[x + 1];
        peak[x] = response[x] > side ? response[x] : side;
    }
    for (int x = 0; x < W; x++) {
        int64_t scaled = response[x] >> 23;
        scaled = scaled < 0 ? 0 : scaled > 65535 ? 65535 : scaled;
        is[x] = (scaled >= 16000) & (response[x] == peak[x]) & (y == 0 || peak[x] >= before[x]);
        strength[x] = __builtin_bswap16((uint16_t)scaled);
    }
}

MAKES_LINE corners(int y, uint8_t *restrict corner) {
    const int64_t *peak = line_peak(y), *after = line_peak(clamped(y + 1));
    const uint8_t *is = is_peak(y);
    for (int x = 0; x < W; x++)
        corner[x] = is[x] & (peak[x] >= after[x]);
}

int main(int count, char **words) {
    if (count != 3)
        stop("usage: harris IN OUT");
    grey = read_raster(opened(words[1], "rb"), 1);
    uint16_t *strength = room_for((size_t)2 * W * H);
    uint8_t *corner = room_for((size_t)W * H);
    for (int y = 0; y < H + 2; y++) {
        if (in_frame(y))
            products(y);
        if (in_frame(y - 1))
            responses(y - 1, strength + (size_t)W * (y - 1));
        if (in_frame(y - 2))
            corners(y - 2, corner + (size_t)W * (y - 2));
    }
    FILE *file = opened(words[2], "wb");
    write_raster(file, strength, 2, 65535);
    write_raster(file, corner, 1, 1);
    closed(file);
}
