/* What the fused loops share: the frame, lines of images, borders, and files of images.
 *
 * Each program makes one pass over the lines of its input. A function of it makes line y of some images of the example of its name.
 * Of an image that other lines are made of, only the last lines are kept. */
#include <stdint.h>
#include <stdio.h>
#include <stdlib.h>

#ifndef W
#define W 4096
#define H 4096
#endif
#define PAD 16

/* A line with room for neighbours outside the frame: NAME[0] is its first pixel. */
#define LINE(type, name) \
    static type name##_room[PAD + W + PAD]; \
    static type *const name = name##_room + PAD

/* The last lines of an image, a power of two of them: NAME(y) is line y. */
#define LINES(type, name, kept) \
    static type name##_room[kept][PAD + W + PAD]; \
    static inline type *name(int y) { return name##_room[y & ((kept) - 1)] + PAD; }

/* A function that makes a line. By itself it is compiled for speed; inlined in main, which runs once, it is compiled for size. */
#define MAKES_LINE __attribute__((noinline)) static void

/* The pixels beside a line: those of its ends, as `edge clamp` has them. */
#define CLAMP(line, far) \
    for (int k = 1; k <= (far); k++) \
    (line)[-k] = (line)[0], (line)[W - 1 + k] = (line)[W - 1]

static inline int in_frame(int y) { return 0 <= y && y < H; }

static inline int clamped(int y) { return y < 0 ? 0 : y >= H ? H - 1 : y; }

static inline int least(int a, int b) { return a < b ? a : b; }

static inline int greatest(int a, int b) { return a > b ? a : b; }

/* `sat`: the nearest value from 0 to this one. */
static inline int sat(int value, int most) { return least(greatest(value, 0), most); }

static void stop(const char *why) {
    fprintf(stderr, "%s\n", why);
    exit(1);
}

static void *room_for(size_t bytes) {
    void *found = malloc(bytes);
    if (!found)
        stop("out of memory");
    return found;
}

static FILE *opened(const char *name, const char *how) {
    FILE *file = fopen(name, how);
    if (!file)
        stop("a file does not open");
    return file;
}

/* The raster of the next image of a file, as it is there. */
static void *read_raster(FILE *file, int bytes) {
    int width, height, most;
    if (fscanf(file, "P5 %d %d %d", &width, &height, &most) != 3 || width != W || height != H || fgetc(file) != '\n')
        stop("an image has another frame");
    void *raster = room_for((size_t)bytes * W * H);
    if (fread(raster, (size_t)bytes, (size_t)W * H, file) != (size_t)W * H)
        stop("an image is too short");
    return raster;
}

static void write_raster(FILE *file, const void *raster, int bytes, int most) {
    fprintf(file, "P5\n%d %d\n%d\n", W, H, most);
    if (fwrite(raster, (size_t)bytes, (size_t)W * H, file) != (size_t)W * H)
        stop("a file is not written");
}

static void closed(FILE *file) {
    if (fclose(file))
        stop("a file is not written");
}
