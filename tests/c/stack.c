/*
 * How much stack each call takes: a thread runs it on painted memory, and the paint that is gone is
 * counted. What a thread takes that calls nothing is taken off. No call may pass what the header says.
 */
#define _DEFAULT_SOURCE
#include "test.h"
#include <pthread.h>
#include <stdlib.h>

#define ROOM (256 * 1024)
#define PAINT 0xa5
#define TONES CLEVISROOT_MAX_TONES
#define START 7

static uint8_t bits[TONES], frame[CLEVISROOT_MAX_FRAME], bits_out[TONES];
static uint8_t work[CLEVISROOT_MAX_WORK];
static uint16_t gains[TONES], tones[TONES], tones_out[TONES];
static int16_t x[TONES], y[TONES];
static table_set set = {1, bits, TONES, gains, TONES, tones, TONES};
static size_t bytes, bytes_at;
static uint32_t number;

static void nothing(void) {}

static void check(void)
{
    number = clevisroot_check(TABLES(&set)).number;
}

static void reorder(void)
{
    number = clevisroot_reorder(TABLES(&set), tones_out, TONES, bits_out, TONES).number;
}

static void encode(void)
{
    number = clevisroot_encode(TABLES(&set), frame, bytes, 1, x, TONES, y, TONES).number;
}

static void encode_at(void)
{
    number = clevisroot_encode_at(TABLES(&set), frame, bytes_at, START, 1, x, TONES, y, TONES)
                 .number;
}

static void read_at(void)
{
    number =
        clevisroot_read_at(TABLES(&set), x, TONES, y, TONES, 1, frame, bytes_at, START).number;
}

static void read_points(void)
{
    number = clevisroot_read(TABLES(&set), x, TONES, y, TONES, 1, frame, bytes).number;
}

static void nearest(void)
{
    size_t work_len = clevisroot_work_bytes(set.coded, bits, TONES);
    number = clevisroot_read_nearest(TABLES(&set), x, TONES, y, TONES, 1, frame, bytes_at, START,
                                     work, work_len)
                 .number;
}

static void clip(void)
{
    number = clevisroot_clip_check(LISTS(&set), x, TONES, y, TONES, 1).number;
}

/* Of every bit count the last label there and back, and a point beyond all. */
static void map_and_read(const mapper *m)
{
    number = CLEVISROOT_DONE;
    for (uint8_t b = 1; b <= 15; b++) {
        clevisroot_point p = m->map_label(b, (1u << b) - 1);
        number |= p.number | m->read_point(b, p.x, p.y).number;
        number |= m->read_point(b, 255, 255).number ^ CLEVISROOT_OFFGRID;
    }
}

static void one_tone(void)
{
    map_and_read(&mappers[0]);
    number |= clevisroot_draw(1).number;
}

static void plain(void)
{
    map_and_read(&mappers[1]);
}

static void tally(void)
{
    size_t most = CLEVISROOT_MAX_FRAME;
    clevisroot_tallied t = clevisroot_tally_read(clevisroot_tally_new(), frame, most, frame, most);
    number = t.number | clevisroot_tally_refused(t.tally, frame, most, 1).number;
}

typedef void call(void);

static void *run(void *argument)
{
    (*(call **)argument)();
    return NULL;
}

/* The bytes of a thread's stack that are touched while it makes this call. */
static size_t touched(call *made)
{
    uint8_t *stack = (uint8_t *)aligned_alloc(4096, ROOM);
    pthread_attr_t attributes;
    pthread_t thread;
    memset(stack, PAINT, ROOM);
    CHECK(pthread_attr_init(&attributes) == 0);
    CHECK(pthread_attr_setstack(&attributes, stack, ROOM) == 0);
    CHECK(pthread_create(&thread, &attributes, run, &made) == 0);
    CHECK(pthread_join(thread, NULL) == 0);
    size_t left = 0;
    while (left < ROOM && stack[left] == PAINT)
        left++;
    pthread_attr_destroy(&attributes);
    free(stack);
    return ROOM - left;
}

/* A call on the largest tables; the first one is for the loader, which takes stack of its own. */
static void measure(const char *name, call *made, size_t most)
{
    made();
    size_t taken = touched(made) - touched(nothing);
    CHECK(number == CLEVISROOT_DONE);
    CHECK(taken <= most);
    printf("stack of %-9s %s %6zu bytes\n", name, set.coded ? "coded  " : "uncoded", taken);
}

static void load(void)
{
    for (size_t k = 0; k < TONES; k++) {
        bits[k] = (uint8_t)(k % 16);
        gains[k] = 512;
        tones[k] = (uint16_t)(TONES - 1 - k);
    }
}

static void measure_all(uint8_t coded)
{
    set.coded = coded;
    uint32_t size = clevisroot_check(TABLES(&set)).size;
    bytes = clevisroot_frame_bytes(size);
    bytes_at = clevisroot_frame_bytes_at(size, START);
    measure("check", check, CLEVISROOT_STACK);
    measure("reorder", reorder, CLEVISROOT_STACK);
    measure("encode", encode, CLEVISROOT_STACK);
    measure("encode_at", encode_at, CLEVISROOT_STACK);
    measure("read", read_points, CLEVISROOT_STACK);
    measure("read_at", read_at, CLEVISROOT_STACK);
    measure("nearest", nearest, CLEVISROOT_NEAREST_STACK);
    if (coded)
        measure("clip", clip, CLEVISROOT_STACK);
    measure("one tone", one_tone, CLEVISROOT_STACK);
    measure("plain", plain, CLEVISROOT_STACK);
    measure("tally", tally, CLEVISROOT_STACK);
}

int main(void)
{
    load();
    measure_all(0);
    measure_all(1);
    return verdict("stack");
}
