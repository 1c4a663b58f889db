/* The peer of run.py: tiles on 512 x 512 in wlroots' scene, over its pixman renderer and its headless
 * backend, with no clients and no event loop. Each frame changes all tiles; then the output's frame
 * event is sent, as the backend's timer would, and its handler commits the output.
 *
 * usage: peer colour|move COUNT GAP FRAMES FILE    the last frame goes into the file, red first
 */
#define WLR_USE_UNSTABLE
#include <drm_fourcc.h>
#include <stdio.h>
#include <stdlib.h>
#include <string.h>
#include <wayland-server-core.h>
#include <wlr/backend.h>
#include <wlr/backend/headless.h>
#include <wlr/interfaces/wlr_output.h>
#include <wlr/render/allocator.h>
#include <wlr/render/pixman.h>
#include <wlr/render/wlr_renderer.h>
#include <wlr/types/wlr_buffer.h>
#include <wlr/types/wlr_output.h>
#include <wlr/types/wlr_scene.h>
#include <wlr/util/log.h>

enum { SIDE = 512, MOST = 1024 };

static struct wlr_scene_output *scene_output;
static const char *last_frame;
static int is_last;

static void on_frame(struct wl_listener *listener, void *data) {
    (void)listener;
    (void)data;
    if (!wlr_scene_output_commit(scene_output)) exit(1);
}

static void on_commit(struct wl_listener *listener, void *data) {
    struct wlr_output_event_commit *event = data;
    void *pixels;
    uint32_t format;
    size_t stride;
    (void)listener;
    if (!is_last || !event->buffer) return;
    FILE *file = fopen(last_frame, "wb");
    if (!file || !wlr_buffer_begin_data_ptr_access(event->buffer, WLR_BUFFER_DATA_PTR_ACCESS_READ, &pixels, &format, &stride)) exit(1);
    for (int y = 0; y < SIDE; y++)
        for (int x = 0; x < SIDE; x++) {
            uint32_t p = ((uint32_t *)((char *)pixels + stride * (size_t)y))[x];
            unsigned char bytes[4] = {(unsigned char)(p >> 16), (unsigned char)(p >> 8), (unsigned char)p, 255};
            if (fwrite(bytes, 1, 4, file) != 4) exit(1);
        }
    wlr_buffer_end_data_ptr_access(event->buffer);
    if (fclose(file)) exit(1);
}

/* The colour of a tile after so many changes, red alone changing. */
static void colour(float to[4], int tile, int changes) {
    to[0] = (float)((tile + 77 * changes) % 256) / 255.0f;
    to[1] = 100 / 255.0f;
    to[2] = 50 / 255.0f;
    to[3] = 1;
}

int main(int argc, char **argv) {
    if (argc != 6) return 2;
    int moves = !strcmp(argv[1], "move"), count = atoi(argv[2]), gap = atoi(argv[3]), frames = atoi(argv[4]), row = 1;
    if (count < 1 || count > MOST) return 2;
    last_frame = argv[5];
    while (row * row < count) row++;
    int size = SIDE / row;
    wlr_log_init(WLR_ERROR, NULL);
    struct wl_display *display = wl_display_create();
    struct wlr_backend *backend = wlr_headless_backend_create(display);
    struct wlr_renderer *renderer = wlr_pixman_renderer_create();
    struct wlr_allocator *allocator = wlr_allocator_autocreate(backend, renderer);
    struct wlr_output *output = wlr_headless_add_output(backend, SIDE, SIDE);
    if (!wlr_output_init_render(output, allocator, renderer) || !wlr_backend_start(backend)) return 1;
    struct wl_listener frame_listener = {.notify = on_frame}, commit_listener = {.notify = on_commit};
    wl_signal_add(&output->events.frame, &frame_listener);
    wl_signal_add(&output->events.commit, &commit_listener);
    struct wlr_scene *scene = wlr_scene_create();
    scene_output = wlr_scene_output_create(scene, output);
    struct wlr_scene_rect *tiles[MOST];
    float to[4];
    for (int i = 0; i < count; i++) {
        colour(to, i, 0);
        tiles[i] = wlr_scene_rect_create(&scene->node, size - gap, size - gap, to);
        wlr_scene_node_set_position(&tiles[i]->node, i % row * size, i / row * size);
    }
    wlr_output_send_frame(output);
    for (int change = 1; change <= frames; change++) {
        for (int i = 0; i < count; i++) {
            colour(to, i, change);
            if (moves) wlr_scene_node_set_position(&tiles[i]->node, i % row * size + change % 2, i / row * size);
            else wlr_scene_rect_set_color(tiles[i], to);
        }
        is_last = change == frames;
        wlr_output_send_frame(output);
    }
    return 0;
}
