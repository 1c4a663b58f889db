/* A small compositor to begin from. It plays scenes with layers of opaque colours at the root, whose one actor applies
 * each transaction right before its vsync. Of any other scene it says that it can't play it, by status 77.
 *
 *     cc -std=c99 -o /tmp/example peers/example.c
 *     python3 tools/judge.py peers/example.sf -- /tmp/example
 *
 * With -DWRONG it paints each layer a column too wide. */
#include "records.h"
#include <stdlib.h>
#include <string.h>

struct layer { unsigned number, colour; int x, y, left, top, width, height; } layers[256], l;

unsigned layer_count, width, height, vsyncs, token, version, position;
unsigned long long period;
unsigned char frame[4 * 1024 * 1024];

struct layer *layer_of(unsigned number) {
    for (unsigned i = 0; i < layer_count; i++)
        if (layers[i].number == number) return &layers[i];
    exit(77);
}

/* What a layer shows lies inside its crop, which is seen from its place. */
int has(const struct layer *layer, int x, int y) {
    int left = layer->x + layer->left, top = layer->y + layer->top, right = left + layer->width;
#ifdef WRONG
    right++;
#endif
    return x >= left && x < right && y >= top && y < top + layer->height;
}

void show_vsync(void) {
    for (unsigned at = 0; at < width * height; at++) {
        unsigned colour = 0xff;
        for (unsigned i = 0; i < layer_count; i++)
            if (has(&layers[i], (int)(at % width), (int)(at / width))) colour = layers[i].colour;
        for (int k = 0; k < 4; k++) frame[4 * at + (unsigned)k] = (unsigned char)(colour >> (24 - 8 * k));
    }
    vsyncs++;
    records_vsync(stdout, vsyncs, vsyncs * period, 0, NULL);
    records_commit(stdout, token, vsyncs, RECORD_COMMITTED, 0, 0, NULL);
    records_frame(stdout, vsyncs, width * height, frame);
}

int is_change(const char *line) {
    if (sscanf(line, "set 1 %u create colour %u", &l.number, &position) == 2 && position == 0 && layer_count < 256)
        layers[layer_count++] = (struct layer){l.number, 0xff, 0, 0, -20000, -20000, 40000, 40000};
    else if (sscanf(line, "set 1 %u colour %8x", &l.number, &l.colour) == 2 && (l.colour & 255) == 255) layer_of(l.number)->colour = l.colour;
    else if (sscanf(line, "set 1 %u position %d %d", &l.number, &l.x, &l.y) == 3) layer_of(l.number)->x = l.x, layer_of(l.number)->y = l.y;
    else if (sscanf(line, "set 1 %u crop %d %d %d %d", &l.number, &l.left, &l.top, &l.width, &l.height) == 5) {
        l.colour = layer_of(l.number)->colour, l.x = layer_of(l.number)->x, l.y = layer_of(l.number)->y;
        *layer_of(l.number) = l;
    } else return 0;
    return 1;
}

int main(void) {
    char line[256];
    while (fgets(line, sizeof line, stdin)) {
        if (sscanf(line, "scene %u %u %u %llu", &version, &width, &height, &period) == 4) records_scene(stdout, version, width, height, period);
        else if (sscanf(line, "apply 1 token %u", &token) == 1) show_vsync();
        else if (!is_change(line) && !strstr("#actor 1\ntx 1\nend\n", line) && strncmp(line, "order ", 6) && line[0] != '#') exit(77);
    }
    records_done(stdout);
    return fclose(stdout) ? 1 : 0;
}
