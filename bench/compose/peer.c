/* Composes the frames of two views in turns with pixman, and prints the last as runs of equal
 * pixels, as test_layers does. What it reads are lines of words:
 *
 *   display WIDTH HEIGHT
 *   picture WIDTH HEIGHT [X Y WIDTH HEIGHT R G B A ..]
 *   view                              the layers after it are the next view's, from the back
 *   colour R G B A ALPHA OPAQUE X Y WIDTH HEIGHT
 *   buffer PICTURE ALPHA OPAQUE X Y WIDTH HEIGHT SOURCE_X SOURCE_Y ORIENT
 *
 * Bytes stand in the order red, green, blue, alpha, as in test_layers; with the word blue in pixman's own order,
 * blue, green, red, alpha. What is printed is the same.
 *
 * usage: peer ROUNDS [blue] < SCENE */
#include <pixman.h>
#include <stdint.h>
#include <stdio.h>
#include <stdlib.h>
#include <string.h>

enum { MOST_PICTURES = 64, MOST_LAYERS = 512, VIEWS = 2 };

struct layer { int is_buffer, picture, alpha, opaque, x, y, width, height, source_x, source_y, orient; uint32_t pixel; };
struct view { int count; struct layer layers[MOST_LAYERS]; };

/* A picture twice: as it is, and with its alpha ignored, for opaque layers. */
static pixman_image_t *pictures[MOST_PICTURES], *opaque_pictures[MOST_PICTURES];
static struct view views[VIEWS];
static int width, height;

/* Where red and blue stand among the four bytes of a pixel, and what pixman calls this order. */
static int red = 0, blue = 2;
static pixman_format_code_t with_alpha = PIXMAN_a8b8g8r8, without_alpha = PIXMAN_x8b8g8r8;

static void put_blue_first(void) {
    red = 2, blue = 0;
    with_alpha = PIXMAN_a8r8g8b8, without_alpha = PIXMAN_x8r8g8b8;
}

/* The bytes of a colour, red, green, blue and alpha, as they stand in memory. */
static uint32_t pixel_of(const int *c) {
    uint8_t bytes[4];
    uint32_t pixel;
    bytes[red] = (uint8_t)c[0], bytes[1] = (uint8_t)c[1], bytes[blue] = (uint8_t)c[2], bytes[3] = (uint8_t)c[3];
    memcpy(&pixel, bytes, 4);
    return pixel;
}

static pixman_color_t colour_of(uint32_t pixel) {
    uint8_t c[4];
    memcpy(c, &pixel, 4);
    return (pixman_color_t){(uint16_t)(c[red] * 257), (uint16_t)(c[1] * 257), (uint16_t)(c[blue] * 257), (uint16_t)(c[3] * 257)};
}

/* Takes the points of a turned layer's box to the points of its picture. */
static void turn(const struct layer *l, pixman_image_t *source) {
    int back_across = 2 <= l->orient && l->orient <= 5, back_down = l->orient % 4 == 1 || l->orient % 4 == 2, sideways = l->orient % 2;
    int across = back_across ? -1 : 1, down = back_down ? -1 : 1;
    int left = l->source_x + (back_across ? l->width : 0), top = l->source_y + (back_down ? l->height : 0);
    pixman_transform_t to_picture = {{
        {sideways ? 0 : pixman_int_to_fixed(across), sideways ? pixman_int_to_fixed(across) : 0, pixman_int_to_fixed(left)},
        {sideways ? pixman_int_to_fixed(down) : 0, sideways ? 0 : pixman_int_to_fixed(down), pixman_int_to_fixed(top)},
        {0, 0, pixman_fixed_1},
    }};
    pixman_image_set_transform(source, &to_picture);
    pixman_image_set_filter(source, PIXMAN_FILTER_NEAREST, NULL, 0);
}

static void compose(const struct view *view, pixman_image_t *frame, uint32_t *pixels) {
    static const int black[4] = {0, 0, 0, 255};
    uint32_t ground = pixel_of(black);
    pixman_box32_t whole = {0, 0, width, height};
    pixman_color_t ground_colour = colour_of(ground);
    (void)pixels;
    pixman_image_fill_boxes(PIXMAN_OP_SRC, frame, &ground_colour, 1, &whole);
    for (int i = 0; i < view->count; i++) {
        const struct layer *l = &view->layers[i];
        pixman_image_t *source, *mask = NULL, *own = NULL;
        if (l->is_buffer) {
            source = l->opaque ? opaque_pictures[l->picture] : pictures[l->picture];
        } else {
            pixman_color_t colour = colour_of(l->pixel);
            if (l->opaque) colour.alpha = 0xffff;
            source = own = pixman_image_create_solid_fill(&colour);
        }
        if (l->alpha != 255) {
            pixman_color_t cover = {0, 0, 0, (uint16_t)(l->alpha * 257)};
            mask = pixman_image_create_solid_fill(&cover);
        }
        if (l->orient) {
            int sideways = l->orient % 2;
            turn(l, source);
            pixman_image_composite32(PIXMAN_OP_OVER, source, mask, frame, 0, 0, 0, 0, l->x, l->y, sideways ? l->height : l->width, sideways ? l->width : l->height);
            pixman_image_set_transform(source, NULL);
        } else {
            pixman_image_composite32(PIXMAN_OP_OVER, source, mask, frame, l->source_x, l->source_y, 0, 0, l->x, l->y, l->width, l->height);
        }
        if (mask) pixman_image_unref(mask);
        if (own) pixman_image_unref(own);
    }
}

static int numbers(char *words, int *to, int most) {
    int count = 0;
    for (char *word = strtok(words, " \n"); word && count < most; word = strtok(NULL, " \n")) to[count++] = atoi(word);
    return count;
}

static void add_picture(int number, const int *n, int count) {
    int w = n[0], h = n[1];
    uint32_t *pixels = calloc((size_t)w * (size_t)h, 4);
    for (int at = 2; at + 8 <= count; at += 8)
        for (int y = n[at + 1]; y < n[at + 1] + n[at + 3]; y++)
            for (int x = n[at]; x < n[at] + n[at + 2]; x++) pixels[y * w + x] = pixel_of(&n[at + 4]);
    pictures[number] = pixman_image_create_bits_no_clear(with_alpha, w, h, pixels, w * 4);
    opaque_pictures[number] = pixman_image_create_bits_no_clear(without_alpha, w, h, pixels, w * 4);
}

static void print(const uint32_t *pixels) {
    int run = 0;
    for (int i = 0; i < width * height; i++) {
        run++;
        if (i + 1 < width * height && pixels[i + 1] == pixels[i]) continue;
        uint8_t c[4];
        memcpy(c, &pixels[i], 4);
        printf("  %d x %d %d %d %d\n", run, c[red], c[1], c[blue], c[3]);
        run = 0;
    }
}

int main(int argc, char **argv) {
    static char line[1 << 20];
    static int n[1 << 17];
    int rounds = argc > 1 ? atoi(argv[1]) : 1, count_pictures = 0, at = -1;
    if (argc > 2 && !strcmp(argv[2], "blue")) put_blue_first();
    while (fgets(line, sizeof line, stdin)) {
        char *rest = strchr(line, ' ');
        int count = rest ? numbers(rest + 1, n, 1 << 17) : 0;
        if (!strncmp(line, "display", 7)) width = n[0], height = n[1];
        else if (!strncmp(line, "picture", 7)) add_picture(count_pictures++, n, count);
        else if (!strncmp(line, "view", 4)) at++;
        else if (!strncmp(line, "colour", 6))
            views[at].layers[views[at].count++] = (struct layer){.pixel = pixel_of(n), .alpha = n[4], .opaque = n[5], .x = n[6], .y = n[7], .width = n[8], .height = n[9]};
        else if (!strncmp(line, "buffer", 6))
            views[at].layers[views[at].count++] = (struct layer){.is_buffer = 1, .picture = n[0], .alpha = n[1], .opaque = n[2], .x = n[3], .y = n[4], .width = n[5], .height = n[6], .source_x = n[7], .source_y = n[8], .orient = n[9]};
    }
    uint32_t *pixels = malloc((size_t)width * (size_t)height * 4);
    pixman_image_t *frame = pixman_image_create_bits_no_clear(with_alpha, width, height, pixels, width * 4);
    compose(&views[0], frame, pixels);
    for (int round = 0; round < rounds; round++) compose(&views[1 - round % 2], frame, pixels);
    print(pixels);
    return 0;
}
