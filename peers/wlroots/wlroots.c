/* Plays scenes through wlroots' scene graph, with its pixman renderer and its headless backend, and writes the
 * frames as records. It reads what each vsync commits (docs/JUDGING.md), as `judge.py --commits` gives it:
 *
 *     sh peers/wlroots/build /tmp/wlroots
 *     python3 tools/judge.py --commits SCENE -- /tmp/wlroots
 *
 * A layer is a tree node at the layer's position, and in it, between the trees of the layers below it, the node of what
 * it shows: a rect, or a buffer with a source box. Each stack that a display shows is a scene of its own. What the scene
 * graph of wlroots 0.15 has no word for is not played, and the program ends with status 77: layers that are relative to
 * others, alpha of a frame or over other layers, mirrors and captures. It has no crop either: rects and source boxes are
 * cut here. Transactions, queues and backpressure are not asked of it: what a vsync commits is given.
 *
 * With the word `around` it goes around two faults of wlroots 0.15.1 with source boxes: a part of a picture becomes a
 * buffer of its own, and each buffer is given its source box. */
#define WLR_USE_UNSTABLE
#include "../records.h"
#include <drm_fourcc.h>
#include <stdarg.h>
#include <stdbool.h>
#include <stdlib.h>
#include <string.h>
#include <wayland-server-core.h>
#include <wlr/backend.h>
#include <wlr/backend/headless.h>
#include <wlr/interfaces/wlr_output.h>
#include <wlr/render/allocator.h>
#include <wlr/render/pixman.h>
#include <wlr/render/wlr_renderer.h>
#include <wlr/types/wlr_buffer.h>
#include <wlr/types/wlr_output.h>
#include <wlr/types/wlr_scene.h>
#include <wlr/util/log.h>

enum {
    MOST_LAYERS = 1024,
    MOST_PICTURES = 256,
    MOST_DISPLAYS = 8,
    MOST_HITS = 64,
    MOST_STACKED = 16384,
    MOST_WORDS = 16,
    WIDEST = 1024,
    FAR = 1 << 24,
    CANNOT_SAY = 77,
    OWN = 1,
    ROOT = 0,
    NONE = -1
};

struct box {
    int left, top, right, bottom;
};

/* A picture's pixels, in memory red first, as a buffer of wlroots, and the same where their alpha is taken as 255. */
struct picture {
    int width, height;
    uint32_t format;
    uint8_t *pixels;
    struct pixels *buffer, *opaque;
};

struct layer {
    int64_t number, parent;
    bool is_there, is_colour, is_buffer, is_hidden, is_opaque, is_cropped;
    int z, x, y, alpha, orient, age;
    struct box crop;
    uint8_t colour[4];
    struct picture *picture;
    struct box frame;
    bool is_new_frame, shown_opaque;
    struct box shown_part;
    struct wlr_scene_tree *tree;
    struct wlr_scene_node *content, *content_root;
};

struct display {
    int width, height;
    struct wlr_scene *scene;
    struct wlr_scene_output *scene_output;
    struct wlr_output *output;
    struct wl_listener frame, commit;
    uint8_t *pixels;
};

struct stack {
    uint32_t stack;
    struct wlr_scene *scene;
};

static struct layer layers[MOST_LAYERS];
static int layer_count, born;
static struct picture pictures[MOST_PICTURES + 1], *last_picture;
static struct display displays[MOST_DISPLAYS + 1];
static struct stack stacks[MOST_DISPLAYS];
static int stack_count;
static struct {
    int64_t layer;
    uint32_t stack;
} layer_stacks[MOST_STACKED];
static int layer_stack_count;
static struct {
    bool is_there;
    int x, y;
} hits[MOST_HITS + 1];
static struct wlr_scene *nowhere;
static struct wl_display *wayland;
static struct wlr_backend *backend;
static struct wlr_renderer *renderer;
static struct wlr_allocator *allocator;
static unsigned vsync_number;
static bool goes_around;

static void end(int status, const char *format, ...) {
    va_list words;
    va_start(words, format);
    vfprintf(stderr, format, words);
    va_end(words);
    fputc('\n', stderr);
    exit(status);
}

static int least(int a, int b) { return a < b ? a : b; }
static int most(int a, int b) { return a > b ? a : b; }
static bool is_empty(struct box b) { return b.left >= b.right || b.top >= b.bottom; }
static struct box common(struct box a, struct box b) {
    return (struct box){most(a.left, b.left), most(a.top, b.top), least(a.right, b.right), least(a.bottom, b.bottom)};
}
static struct box moved(struct box b, int x, int y) { return (struct box){b.left + x, b.top + y, b.right + x, b.bottom + y}; }
static unsigned product(unsigned a, unsigned b) { return (a * b + 127) / 255; }

/* Buffers of wlroots over memory. */

struct pixels {
    struct wlr_buffer base;
    void *data;
    uint32_t format;
    size_t stride;
};

static void pixels_destroy(struct wlr_buffer *buffer) {
    struct pixels *pixels = (struct pixels *)buffer;
    free(pixels->data);
    free(pixels);
}

static bool pixels_begin(struct wlr_buffer *buffer, uint32_t flags, void **data, uint32_t *format, size_t *stride) {
    struct pixels *pixels = (struct pixels *)buffer;
    (void)flags;
    *data = pixels->data;
    *format = pixels->format;
    *stride = pixels->stride;
    return true;
}

static void pixels_end(struct wlr_buffer *buffer) { (void)buffer; }

static const struct wlr_buffer_impl pixels_impl = {.destroy = pixels_destroy, .begin_data_ptr_access = pixels_begin, .end_data_ptr_access = pixels_end};

/* A buffer of a part of a picture. Pixman wants each row to begin at a multiple of four bytes. */
static struct pixels *pixels_new(const struct picture *picture, struct box part, uint32_t format) {
    struct pixels *pixels = calloc(1, sizeof *pixels);
    size_t width = (size_t)(part.right - part.left), height = (size_t)(part.bottom - part.top);
    wlr_buffer_init(&pixels->base, &pixels_impl, (int)width, (int)height);
    pixels->format = format;
    pixels->stride = format == DRM_FORMAT_RGB565 ? (2 * width + 3) / 4 * 4 : 4 * width;
    pixels->data = calloc(height, pixels->stride);
    for (size_t y = 0; y < height; y++) {
        const uint8_t *from = &picture->pixels[4 * ((size_t)picture->width * (y + (size_t)part.top) + (size_t)part.left)];
        uint8_t *to = (uint8_t *)pixels->data + pixels->stride * y;
        if (format == DRM_FORMAT_RGB565)
            for (size_t x = 0; x < width; x++) ((uint16_t *)to)[x] = (uint16_t)(from[4 * x] >> 3 << 11 | from[4 * x + 1] >> 2 << 5 | from[4 * x + 2] >> 3);
        else
            memcpy(to, from, 4 * width);
    }
    return pixels;
}

static struct box whole_of(const struct picture *picture) { return (struct box){0, 0, picture->width, picture->height}; }

static uint32_t format_of(const struct layer *layer) {
    return layer->is_opaque && layer->picture->format == DRM_FORMAT_ABGR8888 ? DRM_FORMAT_XBGR8888 : layer->picture->format;
}

/* The buffer of the picture that a layer shows. */
static struct wlr_buffer *buffer_of(const struct layer *layer) {
    struct pixels **buffer = layer->is_opaque ? &layer->picture->opaque : &layer->picture->buffer;
    if (!*buffer) *buffer = pixels_new(layer->picture, whole_of(layer->picture), format_of(layer));
    return &(*buffer)->base;
}

/* Displays. */

static void on_frame(struct wl_listener *listener, void *data) {
    struct display *display = wl_container_of(listener, display, frame);
    (void)data;
    if (!wlr_scene_output_commit(display->scene_output)) end(1, "wlroots did not commit the output");
}

/* Keeps what an output shows; its pixels have blue first in memory. */
static void on_commit(struct wl_listener *listener, void *data) {
    struct display *display = wl_container_of(listener, display, commit);
    struct wlr_output_event_commit *event = data;
    void *from;
    uint32_t format;
    size_t stride;
    if (!event->buffer) return;
    if (!wlr_buffer_begin_data_ptr_access(event->buffer, WLR_BUFFER_DATA_PTR_ACCESS_READ, &from, &format, &stride)) end(1, "the output's buffer can't be read");
    if (format != DRM_FORMAT_XRGB8888 && format != DRM_FORMAT_ARGB8888) end(1, "the output has format %08x", format);
    for (int y = 0; y < display->height; y++)
        for (int x = 0; x < display->width; x++) {
            uint32_t pixel = ((uint32_t *)((char *)from + stride * (size_t)y))[x];
            uint8_t *to = &display->pixels[4 * (y * display->width + x)];
            to[0] = (uint8_t)(pixel >> 16);
            to[1] = (uint8_t)(pixel >> 8);
            to[2] = (uint8_t)pixel;
            to[3] = 255;
        }
    wlr_buffer_end_data_ptr_access(event->buffer);
}

static struct wlr_scene *scene_of(uint32_t stack) {
    for (int i = 0; i < stack_count; i++)
        if (stacks[i].stack == stack) return stacks[i].scene;
    return NULL;
}

static void add_display(unsigned number, int width, int height, uint32_t stack) {
    struct display *display = &displays[number];
    struct wlr_scene *scene = scene_of(stack);
    if (!scene) {
        scene = wlr_scene_create();
        stacks[stack_count++] = (struct stack){stack, scene};
    }
    *display = (struct display){.width = width, .height = height, .scene = scene};
    display->pixels = calloc((size_t)width * (size_t)height, 4);
    for (int i = 0; i < width * height; i++) display->pixels[4 * i + 3] = 255;
    display->output = wlr_headless_add_output(backend, (unsigned)width, (unsigned)height);
    if (!display->output || !wlr_output_init_render(display->output, allocator, renderer)) end(1, "no output");
    /* A buffer that covers the output would be scanned out as it is, and nothing be composed. */
    wlr_output_lock_attach_render(display->output, true);
    display->frame.notify = on_frame;
    display->commit.notify = on_commit;
    wl_signal_add(&display->output->events.frame, &display->frame);
    wl_signal_add(&display->output->events.commit, &display->commit);
    display->scene_output = wlr_scene_output_create(scene, display->output);
}



/* Layers. */

static struct layer *layer_of(int64_t number) {
    for (int i = 0; i < layer_count; i++)
        if (layers[i].is_there && layers[i].number == number) return &layers[i];
    return NULL;
}

static struct layer *needed(int64_t number) {
    struct layer *layer = layer_of(number);
    if (!layer) end(1, "layer %lld is not there", (long long)number);
    return layer;
}

static bool has_children(const struct layer *layer) {
    for (int i = 0; i < layer_count; i++)
        if (layers[i].is_there && layers[i].parent == layer->number) return true;
    return false;
}

static void create(int64_t number, const char *kind, int64_t parent) {
    struct layer *layer = NULL;
    for (int i = 0; i < layer_count && !layer; i++)
        if (!layers[i].is_there) layer = &layers[i];
    if (!layer) layer = &layers[layer_count++];
    *layer = (struct layer){.number = number, .parent = parent, .is_there = true, .is_colour = !strcmp(kind, "colour"), .is_buffer = !strcmp(kind, "buffer")};
    layer->alpha = 255;
    layer->age = born++;
    layer->colour[3] = 255;
    layer->tree = wlr_scene_tree_create(&nowhere->node);
    layer->tree->node.data = layer;
}

static void drop_content(struct layer *layer) {
    if (layer->content) wlr_scene_node_destroy(layer->content);
    layer->content = NULL;
}

/* The layers below it have no parent any more. */
static void destroy(struct layer *layer) {
    for (int i = 0; i < layer_count; i++)
        if (layers[i].is_there && layers[i].parent == layer->number) {
            layers[i].parent = NONE;
            wlr_scene_node_reparent(&layers[i].tree->node, &nowhere->node);
        }
    wlr_scene_node_destroy(&layer->tree->node);
    *layer = (struct layer){0};
}

static uint32_t stack_of(const struct layer *layer) {
    for (int i = 0; i < layer_stack_count; i++)
        if (layer_stacks[i].layer == layer->number) return layer_stacks[i].stack;
    return 0;
}

static struct wlr_scene_node *parent_node(const struct layer *layer) {
    struct wlr_scene *scene = layer->parent == ROOT ? scene_of(stack_of(layer)) : NULL;
    if (layer->parent > ROOT) return &needed(layer->parent)->tree->node;
    return scene ? &scene->node : &nowhere->node;
}

/* Where a layer is, and what the crops of it and all above it leave. */
static struct box clip_of(const struct layer *layer, int *x, int *y) {
    struct box clip = {-FAR, -FAR, FAR, FAR};
    *x = *y = 0;
    if (layer->parent > ROOT) clip = clip_of(needed(layer->parent), x, y);
    *x += layer->x;
    *y += layer->y;
    return layer->is_cropped ? common(clip, moved(layer->crop, *x, *y)) : clip;
}

/* Ends where wlroots' scene can't say what a layer is. */
static void check(const struct layer *layer) {
    bool shows_frame = layer->is_buffer && layer->picture;
    if (layer->alpha != 255 && (shows_frame || has_children(layer))) end(CANNOT_SAY, "alpha of a frame, or over other layers");
}

static void put_rect(struct layer *layer, struct box box) {
    float colour[4];
    for (int i = 0; i < 4; i++)
        colour[i] = (float)product(i == 3 && layer->is_opaque ? 255 : layer->colour[i], (unsigned)layer->alpha) / 255.0f;
    int width = box.right - box.left, height = box.bottom - box.top;
    if (!layer->content) {
        layer->content = &wlr_scene_rect_create(&layer->tree->node, width, height, colour)->node;
        return;
    }
    struct wlr_scene_rect *rect = (struct wlr_scene_rect *)layer->content;
    if (rect->width != width || rect->height != height) wlr_scene_rect_set_size(rect, width, height);
    if (memcmp(rect->color, colour, sizeof colour)) wlr_scene_rect_set_color(rect, colour);
}

/* The part of a frame, within its crop, that shows as this box, which is seen from the corner of the turned frame. */
static struct box source_of(const struct layer *layer, struct box box) {
    int width = layer->frame.right - layer->frame.left, height = layer->frame.bottom - layer->frame.top;
    struct box b = layer->orient % 2 ? (struct box){box.top, box.left, box.bottom, box.right} : box;
    bool is_back_across = layer->orient >= 2 && layer->orient <= 5, is_back_down = layer->orient % 4 == 1 || layer->orient % 4 == 2;
    if (is_back_across) b = (struct box){width - b.right, b.top, width - b.left, b.bottom};
    if (is_back_down) b = (struct box){b.left, height - b.bottom, b.right, height - b.top};
    return moved(b, layer->frame.left, layer->frame.top);
}

/* wlroots' names of the orientations 0 to 7. */
static const enum wl_output_transform transforms[8] = {
    WL_OUTPUT_TRANSFORM_NORMAL, WL_OUTPUT_TRANSFORM_90, WL_OUTPUT_TRANSFORM_180, WL_OUTPUT_TRANSFORM_270,
    WL_OUTPUT_TRANSFORM_FLIPPED, WL_OUTPUT_TRANSFORM_FLIPPED_270, WL_OUTPUT_TRANSFORM_FLIPPED_180, WL_OUTPUT_TRANSFORM_FLIPPED_90,
};

static bool is_same(struct box a, struct box b) { return a.left == b.left && a.top == b.top && a.right == b.right && a.bottom == b.bottom; }

/* Makes the node of a buffer anew where it shows another one. With `around` a part of a picture is a buffer of its own. */
static void make_buffer_node(struct layer *layer, struct box part) {
    bool is_other = layer->is_new_frame || layer->shown_opaque != layer->is_opaque || (goes_around && !is_same(layer->shown_part, part));
    if (layer->content && is_other) drop_content(layer);
    layer->is_new_frame = false;
    layer->shown_opaque = layer->is_opaque;
    layer->shown_part = part;
    if (layer->content) return;
    struct wlr_buffer *buffer = goes_around ? &pixels_new(layer->picture, part, format_of(layer))->base : buffer_of(layer);
    layer->content = &wlr_scene_buffer_create(&layer->tree->node, buffer)->node;
    if (goes_around) wlr_buffer_drop(buffer);
}

static void put_buffer(struct layer *layer, struct box box, int x, int y) {
    struct box part = source_of(layer, moved(box, -x, -y)), whole = whole_of(layer->picture);
    struct wlr_fbox source = {part.left, part.top, part.right - part.left, part.bottom - part.top};
    make_buffer_node(layer, part);
    if (goes_around) source.x = source.y = 0;
    struct wlr_scene_buffer *node = (struct wlr_scene_buffer *)layer->content;
    wlr_scene_buffer_set_transform(node, transforms[layer->orient]);
    wlr_scene_buffer_set_source_box(node, is_same(part, whole) && !goes_around ? NULL : &source);
    wlr_scene_buffer_set_dest_size(node, box.right - box.left, box.bottom - box.top);
}

static struct wlr_scene_node *root_of(struct wlr_scene_node *node) {
    while (node->parent) node = node->parent;
    return node;
}

/* Makes the node of what a layer shows, where a display may show it. A scene makes the textures of the buffers that were
 * put into it alone, so what comes from another one is made anew. */
static void put_content(struct layer *layer) {
    int x, y;
    struct wlr_scene_node *root = root_of(&layer->tree->node);
    if (layer->content_root != root) drop_content(layer);
    layer->content_root = root;
    if (root == &nowhere->node) return;
    struct box clip = common(clip_of(layer, &x, &y), (struct box){0, 0, WIDEST, WIDEST});
    if (layer->is_buffer && layer->picture) {
        int width = layer->frame.right - layer->frame.left, height = layer->frame.bottom - layer->frame.top;
        clip = common(clip, layer->orient % 2 ? (struct box){x, y, x + height, y + width} : (struct box){x, y, x + width, y + height});
    }
    if (is_empty(clip) || !(layer->is_colour || (layer->is_buffer && layer->picture))) {
        drop_content(layer);
        return;
    }
    if (layer->is_colour) put_rect(layer, clip);
    else put_buffer(layer, clip, x, y);
    layer->content->data = layer;
    wlr_scene_node_set_position(layer->content, clip.left - x, clip.top - y);
}

static int by_z(const void *a, const void *b) {
    const struct layer *one = *(struct layer *const *)a, *other = *(struct layer *const *)b;
    return one->z != other->z ? (one->z < other->z ? -1 : 1) : one->age - other->age;
}

static void place(struct wlr_scene_node *node, struct wlr_scene_node **below) {
    if (*below) wlr_scene_node_place_above(node, *below);
    else wlr_scene_node_lower_to_bottom(node);
    *below = node;
}

/* Orders the nodes below a node: the layers with z below 0, what the layer itself shows, the other layers. */
static void put_in_order(struct wlr_scene_node *parent, struct wlr_scene_node *content) {
    static struct layer *children[MOST_LAYERS];
    size_t count = 0;
    struct wlr_scene_node *below = NULL;
    for (int i = 0; i < layer_count; i++)
        if (layers[i].is_there && layers[i].tree->node.parent == parent) children[count++] = &layers[i];
    qsort(children, count, sizeof *children, by_z);
    for (size_t i = 0; i < count; i++) {
        if (content && children[i]->z >= 0) {
            place(content, &below);
            content = NULL;
        }
        place(&children[i]->tree->node, &below);
    }
    if (content) place(content, &below);
}

/* Makes wlroots' scenes what the layers are. */
static void put_layers(void) {
    for (int i = 0; i < layer_count; i++)
        if (layers[i].is_there) check(&layers[i]);
    /* A node must not be below itself on the way either, so those that move leave their parents first. */
    for (int i = 0; i < layer_count; i++)
        if (layers[i].is_there && layers[i].tree->node.parent != parent_node(&layers[i])) wlr_scene_node_reparent(&layers[i].tree->node, &nowhere->node);
    for (int i = 0; i < layer_count; i++) {
        struct layer *layer = &layers[i];
        if (!layer->is_there) continue;
        wlr_scene_node_reparent(&layer->tree->node, parent_node(layer));
        wlr_scene_node_set_position(&layer->tree->node, layer->x, layer->y);
        wlr_scene_node_set_enabled(&layer->tree->node, !layer->is_hidden);
    }
    for (int i = 0; i < layer_count; i++)
        if (layers[i].is_there) put_content(&layers[i]);
    for (int i = 0; i < layer_count; i++)
        if (layers[i].is_there) put_in_order(&layers[i].tree->node, layers[i].content);
    for (int i = 0; i < stack_count; i++) put_in_order(&stacks[i].scene->node, NULL);
}

static void show_display(unsigned number, struct display *display) {
    size_t count = (size_t)display->width * (size_t)display->height;
    wlr_output_send_frame(display->output);
    if (number == OWN) records_frame(stdout, vsync_number, count, display->pixels);
    else records_display(stdout, number, vsync_number, count, display->pixels);
}

/* The layer in front at a point of the own display, or 0. */
static uint32_t layer_at(int x, int y) {
    double in_x, in_y;
    struct display *own = &displays[OWN];
    if (x < 0 || y < 0 || x >= own->width || y >= own->height) return 0;
    struct wlr_scene_node *node = wlr_scene_node_at(&own->scene->node, x, y, &in_x, &in_y);
    return node ? (uint32_t)((struct layer *)node->data)->number : 0;
}

/* The records of a vsync. */
static void show(void) {
    put_layers();
    for (unsigned i = 1; i <= MOST_DISPLAYS; i++)
        if (displays[i].output) show_display(i, &displays[i]);
    for (unsigned i = 1; i <= MOST_HITS; i++)
        if (hits[i].is_there) records_hit(stdout, i, vsync_number, layer_at(hits[i].x, hits[i].y));
}

/* Lines. */

static int64_t number(const char *word) { return strtoll(word, NULL, 10); }
static int whole(const char *word) { return (int)number(word); }
static struct box box_of(char **words) {
    int x = whole(words[0]), y = whole(words[1]);
    return (struct box){x, y, x + whole(words[2]), y + whole(words[3])};
}

static void colour_of(const char *word, uint8_t *colour) {
    unsigned long value = strtoul(word, NULL, 16);
    for (int i = 0; i < 4; i++) colour[i] = (uint8_t)(value >> (24 - 8 * i));
}

static void add_picture(char **words, int count) {
    struct picture *picture = last_picture = &pictures[whole(words[1])];
    picture->width = whole(words[2]);
    picture->height = whole(words[3]);
    const char *format = count > 5 ? words[5] : "rgba";
    picture->format = !strcmp(format, "rgba") ? DRM_FORMAT_ABGR8888 : !strcmp(format, "rgbx") ? DRM_FORMAT_XBGR8888 : DRM_FORMAT_RGB565;
    picture->pixels = calloc((size_t)picture->width * (size_t)picture->height, 4);
}

static void fill(char **words) {
    struct box box = common(box_of(&words[1]), (struct box){0, 0, last_picture->width, last_picture->height});
    uint8_t colour[4];
    colour_of(words[5], colour);
    for (int y = box.top; y < box.bottom; y++)
        for (int x = box.left; x < box.right; x++) memcpy(&last_picture->pixels[4 * (y * last_picture->width + x)], colour, 4);
}

static int64_t parent_of(const char *word) { return strcmp(word, "none") ? number(word) : NONE; }

static void change(struct layer *layer, char **words) {
    const char *name = words[0];
    if (!strcmp(name, "destroy")) destroy(layer);
    else if (!strcmp(name, "reparent")) layer->parent = parent_of(words[1]);
    else if (!strcmp(name, "z")) layer->z = whole(words[1]);
    else if (!strcmp(name, "position")) layer->x = whole(words[1]), layer->y = whole(words[2]);
    else if (!strcmp(name, "crop")) {
        layer->is_cropped = strcmp(words[1], "none");
        if (layer->is_cropped) layer->crop = box_of(&words[1]);
    } else if (!strcmp(name, "alpha")) layer->alpha = whole(words[1]);
    else if (!strcmp(name, "hidden")) layer->is_hidden = whole(words[1]);
    else if (!strcmp(name, "opaque")) layer->is_opaque = whole(words[1]);
    else if (!strcmp(name, "colour")) colour_of(words[1], layer->colour);
    else if (!strcmp(name, "orient")) layer->orient = whole(words[1]);
    else if (!strcmp(name, "relative")) end(CANNOT_SAY, "layers that are relative to others");
    else if (strcmp(name, "backpressure")) end(1, "unknown change %s", name);
}

static void show_frame(char **words) {
    struct layer *layer = needed(number(words[1]));
    layer->picture = &pictures[whole(words[2])];
    layer->frame = box_of(&words[3]);
    layer->is_new_frame = true;
}

static void begin_vsync(unsigned next) {
    if (vsync_number) show();
    vsync_number = next;
}

static void start(char **words) {
    records_scene(stdout, (uint32_t)whole(words[1]), (uint32_t)whole(words[2]), (uint32_t)whole(words[3]), (uint64_t)number(words[4]));
    add_display(OWN, whole(words[2]), whole(words[3]), 0);
}

static void add_hit(char **words) {
    int hit = whole(words[1]);
    hits[hit].is_there = true;
    hits[hit].x = whole(words[2]);
    hits[hit].y = whole(words[3]);
}

static void add_stack(char **words) {
    if (layer_stack_count == MOST_STACKED) end(CANNOT_SAY, "more than %d stack lines", MOST_STACKED);
    layer_stacks[layer_stack_count].layer = number(words[1]);
    layer_stacks[layer_stack_count++].stack = (uint32_t)number(words[2]);
}

static void take(char **words, int count) {
    const char *name = words[0];
    if (!strcmp(name, "scene")) start(words);
    else if (!strcmp(name, "display")) add_display((unsigned)whole(words[1]), whole(words[2]), whole(words[3]), (uint32_t)number(words[4]));
    else if (!strcmp(name, "stack")) add_stack(words);
    else if (!strcmp(name, "hit")) add_hit(words);
    else if (!strcmp(name, "capture")) end(CANNOT_SAY, "captures");
    else if (!strcmp(name, "mirror")) end(CANNOT_SAY, "mirrors");
    else if (!strcmp(name, "picture")) add_picture(words, count);
    else if (!strcmp(name, "fill")) fill(words);
    else if (!strcmp(name, "vsync")) begin_vsync((unsigned)number(words[1]));
    else if (!strcmp(name, "set") && !strcmp(words[2], "create")) create(number(words[1]), words[3], parent_of(words[4]));
    else if (!strcmp(name, "set")) change(needed(number(words[1])), &words[2]);
    else if (!strcmp(name, "show")) show_frame(words);
    else if (strcmp(name, "end")) end(1, "unknown line %s", name);
}



int main(int count_of_words, char **words_of_call) {
    char line[1024], *words[MOST_WORDS];
    bool is_started = false;
    goes_around = count_of_words > 1 && !strcmp(words_of_call[1], "around");
    wlr_log_init(WLR_ERROR, NULL);
    wayland = wl_display_create();
    backend = wlr_headless_backend_create(wayland);
    renderer = wlr_pixman_renderer_create();
    allocator = wlr_allocator_autocreate(backend, renderer);
    nowhere = wlr_scene_create();
    while (fgets(line, sizeof line, stdin)) {
        int count = 0;
        for (char *word = strtok(line, " \n"); word && count < MOST_WORDS; word = strtok(NULL, " \n")) words[count++] = word;
        if (!count) continue;
        if (!is_started && !strcmp(words[0], "vsync")) {
            is_started = true;
            if (!wlr_backend_start(backend)) end(1, "the backend does not start");
        }
        take(words, count);
    }
    begin_vsync(0);
    records_done(stdout);
    return fclose(stdout) ? 1 : 0;
}
