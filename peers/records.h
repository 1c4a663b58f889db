/* Writes the records of docs/RECORDS.md, so that tools/judge.py can judge what a compositor shows.
 *
 * Each function writes one record to a file; `fclose` or `ferror` tells whether all could be written.
 * docs/JUDGING.md says which records a compositor has to write for how much judgement. In short:
 *
 *     records_scene, then for each vsync its frames, then records_done      frames alone
 *     .. for each vsync records_vsync, records_commit .., its frames        frames and commits
 *     .. also records_reply, and before records_done the arrivals, the
 *        histories, what is held and who is stuck                           all records
 *
 * Pixels are four bytes each, in the order red, green, blue, alpha, premultiplied; rows stand from the
 * top, each from the left. C99; needs nothing else. */
#ifndef SURBELDOI_RECORDS_H
#define SURBELDOI_RECORDS_H

#include <stddef.h>
#include <stdint.h>
#include <stdio.h>

#if defined(__GNUC__)
#define RECORDS_FUNCTION __attribute__((unused)) static void
#else
#define RECORDS_FUNCTION static void
#endif

/* A timeline with the value that a vsync saw. */
struct record_timeline {
    uint32_t timeline;
    uint64_t value;
};

/* A buffer that a transaction brought: its layer, queue, frame and picture, and the crop that is shown. */
struct record_buffer {
    uint32_t layer, queue;
    uint64_t frame;
    uint32_t picture, x, y, width, height;
};

/* A transaction that arrived: by which step of which actor, and under which token. */
struct record_arrival {
    uint32_t actor, step, token;
};

/* A call on a queue: `caller` is an actor, or 0 for the compositor, whose `step` is a vsync. `slot` is
 * 4294967295 and `frame` 0 where the call has none. */
struct record_call {
    uint32_t caller, step, kind, status, slot;
    uint64_t frame;
};

/* A transaction that waits at the end: the number of its arrival, its hold, and two numbers about it. */
struct record_held {
    uint32_t arrival, hold;
    uint64_t first, second;
};

/* An actor that has steps left: the first of them. */
struct record_stuck {
    uint32_t actor, step;
};

/* The result of a commit: committed, or the cause for which it was rejected. */
enum {
    RECORD_COMMITTED,
    RECORD_UNKNOWN_LAYER,
    RECORD_LAYER_EXISTS,
    RECORD_PARENT_CYCLE,
    RECORD_DRAW_CYCLE,
    RECORD_TOO_MANY_LAYERS,
    RECORD_WRONG_KIND
};

/* Numbers stand with their highest byte first. */
RECORDS_FUNCTION records_u32(FILE *out, uint32_t number) {
    for (int shift = 24; shift >= 0; shift -= 8)
        fputc((int)(number >> shift & 255), out);
}

RECORDS_FUNCTION records_u64(FILE *out, uint64_t number) {
    records_u32(out, (uint32_t)(number >> 32));
    records_u32(out, (uint32_t)number);
}

/* The head of a record: its tag, and how many bytes its body has. */
RECORDS_FUNCTION records_head(FILE *out, const char *tag, size_t size) {
    fwrite(tag, 1, 4, out);
    records_u32(out, (uint32_t)size);
}

/* What stands first: the numbers of the script's first line. */
RECORDS_FUNCTION records_scene(FILE *out, uint32_t version, uint32_t width, uint32_t height, uint64_t period) {
    records_head(out, "SCEN", 20);
    records_u32(out, version);
    records_u32(out, width);
    records_u32(out, height);
    records_u64(out, period);
}

/* A step that was done, with status 0 and its values, or refused with another status and without values. */
RECORDS_FUNCTION records_reply(FILE *out, uint32_t actor, uint32_t step, uint32_t status, uint32_t count, const uint64_t *values) {
    records_head(out, "REPL", 16 + 8 * (size_t)count);
    records_u32(out, actor);
    records_u32(out, step);
    records_u32(out, status);
    records_u32(out, count);
    for (uint32_t i = 0; i < count; i++)
        records_u64(out, values[i]);
}

/* A vsync that commits something: its number, the time in nanoseconds at which its frame is expected, and
 * each declared timeline by rising number. */
RECORDS_FUNCTION records_vsync(FILE *out, uint32_t number, uint64_t expected, uint32_t count, const struct record_timeline *timelines) {
    records_head(out, "VSYN", 16 + 12 * (size_t)count);
    records_u32(out, number);
    records_u64(out, expected);
    records_u32(out, count);
    for (uint32_t i = 0; i < count; i++) {
        records_u32(out, timelines[i].timeline);
        records_u64(out, timelines[i].value);
    }
}

/* A transaction of this vsync: its token, the number of its arrival, from 1, and its result; of a rejected
 * one `operation` is the place of the operation that can't be done, from 1, else 0. */
RECORDS_FUNCTION records_commit(FILE *out, uint32_t token, uint32_t arrival, uint32_t result, uint32_t operation, uint32_t count, const struct record_buffer *buffers) {
    records_head(out, "COMM", 20 + 36 * (size_t)count);
    records_u32(out, token);
    records_u32(out, arrival);
    records_u32(out, result);
    records_u32(out, operation);
    records_u32(out, count);
    for (uint32_t i = 0; i < count; i++) {
        const struct record_buffer *b = &buffers[i];
        records_u32(out, b->layer);
        records_u32(out, b->queue);
        records_u64(out, b->frame);
        records_u32(out, b->picture);
        records_u32(out, b->x);
        records_u32(out, b->y);
        records_u32(out, b->width);
        records_u32(out, b->height);
    }
}

/* The frame of the own display at a vsync: so many pixels. */
RECORDS_FUNCTION records_frame(FILE *out, uint32_t vsync, size_t pixels, const uint8_t *rgba) {
    records_head(out, "FRAM", 4 + 4 * pixels);
    records_u32(out, vsync);
    fwrite(rgba, 4, pixels, out);
}

/* An image with a number before that of the vsync. */
RECORDS_FUNCTION records_image(FILE *out, const char *tag, uint32_t number, uint32_t vsync, size_t pixels, const uint8_t *rgba) {
    records_head(out, tag, 8 + 4 * pixels);
    records_u32(out, number);
    records_u32(out, vsync);
    fwrite(rgba, 4, pixels, out);
}

/* The frame of a further display. */
RECORDS_FUNCTION records_display(FILE *out, uint32_t display, uint32_t vsync, size_t pixels, const uint8_t *rgba) {
    records_image(out, "FRAD", display, vsync, pixels, rgba);
}

/* The picture of a captured layer. */
RECORDS_FUNCTION records_capture(FILE *out, uint32_t capture, uint32_t vsync, size_t pixels, const uint8_t *rgba) {
    records_image(out, "CAPT", capture, vsync, pixels, rgba);
}

/* The layer in front at the point of a hit, or 0. */
RECORDS_FUNCTION records_hit(FILE *out, uint32_t hit, uint32_t vsync, uint32_t layer) {
    records_head(out, "HITS", 12);
    records_u32(out, hit);
    records_u32(out, vsync);
    records_u32(out, layer);
}

/* All transactions that arrived, in order. */
RECORDS_FUNCTION records_arrivals(FILE *out, uint32_t count, const struct record_arrival *arrivals) {
    records_head(out, "ARRV", 4 + 12 * (size_t)count);
    records_u32(out, count);
    for (uint32_t i = 0; i < count; i++) {
        records_u32(out, arrivals[i].actor);
        records_u32(out, arrivals[i].step);
        records_u32(out, arrivals[i].token);
    }
}

/* All calls on a queue, in order. */
RECORDS_FUNCTION records_history(FILE *out, uint32_t queue, uint32_t count, const struct record_call *calls) {
    records_head(out, "HIST", 8 + 28 * (size_t)count);
    records_u32(out, queue);
    records_u32(out, count);
    for (uint32_t i = 0; i < count; i++) {
        records_u32(out, calls[i].caller);
        records_u32(out, calls[i].step);
        records_u32(out, calls[i].kind);
        records_u32(out, calls[i].status);
        records_u32(out, calls[i].slot);
        records_u64(out, calls[i].frame);
    }
}

/* What the last vsync left waiting, by arrival. */
RECORDS_FUNCTION records_held(FILE *out, uint32_t count, const struct record_held *held) {
    records_head(out, "HOLD", 4 + 24 * (size_t)count);
    records_u32(out, count);
    for (uint32_t i = 0; i < count; i++) {
        records_u32(out, held[i].arrival);
        records_u32(out, held[i].hold);
        records_u64(out, held[i].first);
        records_u64(out, held[i].second);
    }
}

/* Who is stuck, by rising number. */
RECORDS_FUNCTION records_stuck(FILE *out, uint32_t count, const struct record_stuck *stuck) {
    records_head(out, "STUK", 4 + 8 * (size_t)count);
    records_u32(out, count);
    for (uint32_t i = 0; i < count; i++) {
        records_u32(out, stuck[i].actor);
        records_u32(out, stuck[i].step);
    }
}

/* The end of a stream that is whole. */
RECORDS_FUNCTION records_done(FILE *out) { records_head(out, "DONE", 0); }

#endif
