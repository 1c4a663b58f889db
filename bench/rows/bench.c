/* Times the row kernels by lanes, the plain loop of one pixel at a time, and pixman's OVER on the
 * same rows, side by side: each round times every contender once, and the best round of each
 * counts. The bytes that the contenders leave are compared first.
 *
 * pixman runs twice, since OVER does the same to red, green and blue: with the rows told as RGBA
 * bytes, and told as BGRA bytes, for which it has more loops of its own.
 *
 * usage: bench [ROUNDS] [PIXELS PER TIMING] */
#include <pixman.h>
#include <stdint.h>
#include <stdio.h>
#include <stdlib.h>
#include <string.h>
#include <time.h>

/* The exports of the static library: a slice is a pointer and a length. */
void bench_rows_blend_row(uint8_t *dst, size_t dst_len, const uint8_t *src, size_t src_len, uint8_t alpha);
void bench_rows_blend_row_opaque(uint8_t *dst, size_t dst_len, const uint8_t *src, size_t src_len, uint8_t alpha);
void bench_rows_blend_colour(uint8_t *dst, size_t dst_len, uint8_t r, uint8_t g, uint8_t b, uint8_t a, uint8_t alpha);
void bench_rows_plain_row(uint8_t *dst, size_t dst_len, const uint8_t *src, size_t src_len, uint8_t alpha);
void bench_rows_plain_row_opaque(uint8_t *dst, size_t dst_len, const uint8_t *src, size_t src_len, uint8_t alpha);
void bench_rows_plain_colour(uint8_t *dst, size_t dst_len, uint8_t r, uint8_t g, uint8_t b, uint8_t a, uint8_t alpha);

enum { WIDEST = 1024, ROW, OPAQUE, COLOUR };
enum { LANES, PLAIN, PIXMAN_RGBA, PIXMAN_BGRA, CONTENDERS };

struct kernel { const char *name; int kind; uint8_t alpha; };
static const struct kernel kernels[] = {
    {"blend_row, alpha 150", ROW, 150},           {"blend_row, alpha 255", ROW, 255},
    {"blend_row_opaque, alpha 150", OPAQUE, 150}, {"blend_row_opaque, alpha 255", OPAQUE, 255},
    {"blend_colour, alpha 150", COLOUR, 150},     {"blend_colour, alpha 255", COLOUR, 255},
};
enum { KERNELS = sizeof kernels / sizeof kernels[0] };
static const int widths[] = {16, 64, 360, 1024};
enum { WIDTHS = sizeof widths / sizeof widths[0] };
static const uint8_t red = 60, green = 70, blue = 80, cover = 120;

/* The sources stand well past a multiple of 4,096 bytes from the destinations, since rows that
 * meet in the low bits of their addresses slow each other down. */
static uint8_t bytes[3 * 4096 + 4 * WIDEST * 4] __attribute__((aligned(4096)));
static uint8_t *const dst = bytes, *const src = bytes + 2 * 4096 + 512;

static void fill(int width) {
    for (int i = 0; i < width; i++) {
        int a = 100 + i % 100;
        for (int c = 0; c < 3; c++) {
            src[4 * i + c] = (i * 7 + c * 31) % (a + 1);
            dst[4 * i + c] = (i * 13 + c * 17) % 256;
        }
        src[4 * i + 3] = a;
        dst[4 * i + 3] = 255;
    }
}

static pixman_image_t *dst_image, *src_image, *mask_image;

static void open_images(const struct kernel *k, int who, int width) {
    if (who != PIXMAN_RGBA && who != PIXMAN_BGRA) return;
    /* RGBA bytes are a8b8g8r8 where the least byte of a word stands first, BGRA bytes a8r8g8b8. */
    int rgba = who == PIXMAN_RGBA;
    pixman_color_t colour = {(rgba ? red : blue) * 257, green * 257, (rgba ? blue : red) * 257, cover * 257};
    pixman_color_t mask = {0, 0, 0, k->alpha * 257};
    pixman_format_code_t whole = rgba ? PIXMAN_a8b8g8r8 : PIXMAN_a8r8g8b8;
    pixman_format_code_t format = k->kind != OPAQUE ? whole : rgba ? PIXMAN_x8b8g8r8 : PIXMAN_x8r8g8b8;
    dst_image = pixman_image_create_bits_no_clear(whole, width, 1, (uint32_t *)dst, width * 4);
    src_image = k->kind == COLOUR ? pixman_image_create_solid_fill(&colour)
                                  : pixman_image_create_bits_no_clear(format, width, 1, (uint32_t *)src, width * 4);
    mask_image = k->alpha == 255 ? NULL : pixman_image_create_solid_fill(&mask);
}

static void close_images(int who) {
    if (who != PIXMAN_RGBA && who != PIXMAN_BGRA) return;
    pixman_image_unref(dst_image);
    pixman_image_unref(src_image);
    if (mask_image) pixman_image_unref(mask_image);
}

static void once(const struct kernel *k, int who, int width) {
    size_t n = 4 * (size_t)width;
    if (who == PIXMAN_RGBA || who == PIXMAN_BGRA) {
        pixman_image_composite32(PIXMAN_OP_OVER, src_image, mask_image, dst_image, 0, 0, 0, 0, 0, 0, width, 1);
    } else if (k->kind == ROW) {
        (who == LANES ? bench_rows_blend_row : bench_rows_plain_row)(dst, n, src, n, k->alpha);
    } else if (k->kind == OPAQUE) {
        (who == LANES ? bench_rows_blend_row_opaque : bench_rows_plain_row_opaque)(dst, n, src, n, k->alpha);
    } else {
        (who == LANES ? bench_rows_blend_colour : bench_rows_plain_colour)(dst, n, red, green, blue, cover, k->alpha);
    }
}

static int compare(void) {
    int wrong = 0;
    static uint8_t first[4 * WIDEST];
    for (int k = 0; k < KERNELS; k++)
        for (int width = 1; width <= 70; width++)
            for (int who = 0; who < CONTENDERS; who++) {
                fill(width);
                open_images(&kernels[k], who, width);
                once(&kernels[k], who, width);
                close_images(who);
                if (who == 0) memcpy(first, dst, 4 * (size_t)width);
                else if (memcmp(first, dst, 4 * (size_t)width)) wrong++;
            }
    return wrong;
}

static double now(void) {
    struct timespec t;
    clock_gettime(CLOCK_THREAD_CPUTIME_ID, &t);
    return (double)t.tv_sec + 1e-9 * (double)t.tv_nsec;
}

int main(int argc, char **argv) {
    int rounds = argc > 1 ? atoi(argv[1]) : 40;
    long pixels = argc > 2 ? atol(argv[2]) : 400000;
    static double best[KERNELS][WIDTHS][CONTENDERS];
    printf("rows that differ between contenders: %d\n", compare());
    for (int round = 0; round < rounds; round++)
        for (int k = 0; k < KERNELS; k++)
            for (int w = 0; w < WIDTHS; w++) {
                int width = widths[w];
                for (int who = 0; who < CONTENDERS; who++) {
                    fill(width);
                    open_images(&kernels[k], who, width);
                    long times = pixels / width / (who == PLAIN ? 8 : 1);
                    double from = now();
                    for (long i = 0; i < times; i++) once(&kernels[k], who, width);
                    double rate = (double)times * width / (now() - from) / 1e6;
                    if (rate > best[k][w][who]) best[k][w][who] = rate;
                    close_images(who);
                }
            }
    printf("million pixels a second, best of %d rounds\n%-28s %6s %7s %7s %11s %11s %7s\n", rounds, "kernel", "pixels",
           "lanes", "plain", "pixman RGBA", "pixman BGRA", "ratio");
    for (int k = 0; k < KERNELS; k++)
        for (int w = 0; w < WIDTHS; w++) {
            double *b = best[k][w];
            double peer = b[PIXMAN_RGBA] > b[PIXMAN_BGRA] ? b[PIXMAN_RGBA] : b[PIXMAN_BGRA];
            printf("%-28s %6d %7.0f %7.0f %11.0f %11.0f %7.2f\n", kernels[k].name, widths[w], b[LANES], b[PLAIN],
                   b[PIXMAN_RGBA], b[PIXMAN_BGRA], b[LANES] / peer);
        }
    printf("ratio: lanes to the better of pixman's two\n");
    return 0;
}
