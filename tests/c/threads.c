/*
 * Two threads in the library at the same time, each with its own tables: every answer is the one that
 * the same work gives alone.
 */
#define _DEFAULT_SOURCE
#include "test.h"
#include <pthread.h>

#define SYMBOLS 400
#define TONES 512

/* A stream of symbols there and back, counted; one number made of its points, frames and answers. */
typedef struct {
    uint8_t coded;
    uint32_t seed;
    uint32_t digest;
    int wrong;
    uint8_t bits[TONES], frame[TONES * 2], back[TONES * 2], moved[TONES * 2], work[TONES * 8];
    uint16_t gains[TONES], tones[TONES];
    int16_t x[TONES], y[TONES], x_at[TONES], y_at[TONES];
    clevisroot_tally tally;
} stream;

static void load(stream *s)
{
    for (size_t k = 0; k < TONES; k++) {
        s->bits[k] = (uint8_t)(k % 16 == 1 ? 2 : k % 16);
        s->gains[k] = 512;
        s->tones[k] = (uint16_t)(s->coded ? TONES - 1 - k : k);
    }
}

static void digest(stream *s, uint32_t number)
{
    s->digest = (s->digest ^ number) * 16777619u;
}

/* The points read to a frame from a start, and that frame encoded: the same points. */
static void one_start(stream *s, const table_set *set, uint32_t size, uint32_t reg, uint8_t start)
{
    size_t bytes = clevisroot_frame_bytes_at(size, start);
    clevisroot_answer read =
        clevisroot_read_at(TABLES(set), s->x, TONES, s->y, TONES, reg, s->moved, bytes, start);
    clevisroot_answer written = clevisroot_encode_at(TABLES(set), s->moved, bytes, start, reg,
                                                     s->x_at, TONES, s->y_at, TONES);
    if (written.number != CLEVISROOT_DONE || read.number != CLEVISROOT_DONE ||
        memcmp(s->x, s->x_at, sizeof s->x) != 0 || memcmp(s->y, s->y_at, sizeof s->y) != 0)
        s->wrong++;
    for (size_t k = 0; k < bytes; k++)
        digest(s, s->moved[k]);
}

/* The points with noise: an answer as near as what was written. */
static void one_nearest(stream *s, const table_set *set, uint32_t size, uint32_t reg, uint8_t start)
{
    size_t bytes = clevisroot_frame_bytes_at(size, start);
    size_t work_len = clevisroot_work_bytes(s->coded, s->bits, TONES);
    uint64_t total = 0;
    for (size_t p = 0; p < TONES; p++) {
        s->x_at[p] = (int16_t)(s->x[p] + (int)(next_random(&s->seed) % 5) - 2);
        s->y_at[p] = (int16_t)(s->y[p] + (int)(next_random(&s->seed) % 5) - 2);
        total += squared_distance(s->x_at[p], s->y_at[p], s->x[p], s->y[p]);
    }
    clevisroot_nearest near =
        clevisroot_read_nearest(TABLES(set), s->x_at, TONES, s->y_at, TONES, reg, s->moved, bytes,
                                start, s->work, work_len);
    if (near.number != CLEVISROOT_DONE || near.size != size || near.total > total)
        s->wrong++;
    for (size_t k = 0; k < bytes; k++)
        digest(s, s->moved[k]);
    digest(s, (uint32_t)near.total);
    digest(s, near.reg);
}

static uint32_t one_symbol(stream *s, const table_set *set, uint32_t size, uint32_t reg)
{
    size_t bytes = clevisroot_frame_bytes(size);
    random_frame(&s->seed, s->frame, size, 0);
    clevisroot_answer written =
        clevisroot_encode(TABLES(set), s->frame, bytes, reg, s->x, TONES, s->y, TONES);
    clevisroot_answer read =
        clevisroot_read(TABLES(set), s->x, TONES, s->y, TONES, reg, s->back, bytes);
    if (written.number != CLEVISROOT_DONE || read.number != CLEVISROOT_DONE ||
        written.reg != read.reg || memcmp(s->frame, s->back, bytes) != 0)
        s->wrong++;
    for (size_t p = 0; p < TONES; p++)
        digest(s, (uint32_t)(s->x[p] * 65536 + s->y[p]));
    digest(s, written.reg);
    return written.reg;
}

/* The clip of the symbol, straight and turned; without 1-bit tones t' is t, coded or not. */
static void one_clip(stream *s, const table_set *set, uint32_t reg)
{
    memcpy(s->x_at, s->x, sizeof s->x);
    memcpy(s->y_at, s->y, sizeof s->y);
    turn(s->x_at, TONES);
    turn(s->y_at, TONES);
    clevisroot_clip straight =
        clevisroot_clip_check(LISTS(set), s->x, TONES, s->y, TONES, reg);
    clevisroot_clip turned =
        clevisroot_clip_check(LISTS(set), s->x_at, TONES, s->y_at, TONES, reg);
    if (straight.clip != CLEVISROOT_CLIP_STRAIGHT || turned.clip != CLEVISROOT_CLIP_TURNED ||
        straight.reg != reg || turned.reg != reg)
        s->wrong++;
    digest(s, straight.clip + 4 * turned.clip);
}

/* The points of some tones, read by each mapper and mapped again by the other; t' is t here, too. */
static void one_tones(stream *s, size_t first)
{
    for (size_t p = first; p < TONES; p += 8)
        for (int k = 0; k < 2; k++) {
            uint8_t data = s->bits[s->tones[p]], bits = data > 0 ? data : 2;
            clevisroot_label label = mappers[k].read_point(bits, s->x[p], s->y[p]);
            clevisroot_point point = mappers[1 - k].map_label(bits, label.label);
            if (label.number != CLEVISROOT_DONE || point.number != CLEVISROOT_DONE ||
                point.x != s->x[p] || point.y != s->y[p])
                s->wrong++;
            digest(s, label.label);
        }
}

/* The symbol counted as read, and as wrong with the bytes of its nearest frame, and as refused. */
static void one_report(stream *s, uint32_t size)
{
    size_t bytes = clevisroot_frame_bytes(size);
    clevisroot_tallied right =
        clevisroot_tally_read(s->tally, s->frame, bytes, s->back, bytes);
    clevisroot_tallied wrong =
        clevisroot_tally_read(right.tally, s->frame, bytes, s->moved, bytes);
    clevisroot_tallied refused =
        clevisroot_tally_refused(wrong.tally, s->frame, bytes, CLEVISROOT_MONITOR);
    if (right.tally.wrong_bits != s->tally.wrong_bits || refused.number != CLEVISROOT_DONE ||
        refused.tally.symbols != s->tally.symbols + 3)
        s->wrong++;
    s->tally = refused.tally;
    digest(s, s->tally.wrong_frames);
    digest(s, s->tally.wrong_bits);
}

static void *run(void *argument)
{
    stream *s = (stream *)argument;
    load(s);
    s->tally = clevisroot_tally_new();
    table_set set = {s->coded, s->bits, TONES, s->gains, TONES, s->tones, TONES};
    clevisroot_answer checked = clevisroot_check(TABLES(&set));
    uint32_t reg = CLEVISROOT_RESET;
    for (int k = 0; k < SYMBOLS; k++) {
        uint32_t after = one_symbol(s, &set, checked.size, reg);
        one_start(s, &set, checked.size, reg, (uint8_t)(k % 8));
        one_nearest(s, &set, checked.size, reg, (uint8_t)(k % 8));
        one_clip(s, &set, reg);
        one_tones(s, (size_t)(k % 8));
        one_report(s, checked.size);
        reg = after;
    }
    return NULL;
}

static stream alone[2], together[2];

static void run_alone(uint8_t k)
{
    alone[k].coded = together[k].coded = k;
    alone[k].seed = together[k].seed = 12345u + k;
    run(&alone[k]);
}

static void run_together(void)
{
    pthread_t first, second;
    CHECK(pthread_create(&first, NULL, run, &together[0]) == 0);
    CHECK(pthread_create(&second, NULL, run, &together[1]) == 0);
    CHECK(pthread_join(first, NULL) == 0);
    CHECK(pthread_join(second, NULL) == 0);
}

static void compare(int k)
{
    CHECK(alone[k].wrong == 0 && together[k].wrong == 0);
    CHECK(alone[k].digest == together[k].digest);
}

int main(void)
{
    run_alone(0);
    run_alone(1);
    run_together();
    compare(0);
    compare(1);
    CHECK(alone[0].digest != alone[1].digest);
    return verdict("threads");
}
