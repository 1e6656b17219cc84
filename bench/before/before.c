/*
 * Two builds of the library in the same rounds: encoding, reading and mapping one label, each by the build before and by
 * this one, which go first in turn. The ratio is taken in each round; printed are medians, and the middle half of the
 * ratios. Both builds must answer alike.
 */
#define _POSIX_C_SOURCE 199309L
#include "clevisroot.h"
#include <stdio.h>
#include <stdlib.h>
#include <string.h>
#include <time.h>

#define TONES 4096
#define FRAME 7681
#define ROUNDS 401
#define SYMBOLS 32
#define LABELS 4096
#define RESET 0x7fffff

/* The build before, under the names that `run` gives it. */
clevisroot_answer before_clevisroot_encode(uint8_t coded, const uint8_t *bits, size_t bits_len,
                                           const uint16_t *gains, size_t gains_len,
                                           const uint16_t *tones, size_t tones_len,
                                           const uint8_t *frame, size_t frame_len, uint32_t reg,
                                           int16_t *x, size_t x_len, int16_t *y, size_t y_len);
clevisroot_answer before_clevisroot_read(uint8_t coded, const uint8_t *bits, size_t bits_len,
                                         const uint16_t *gains, size_t gains_len,
                                         const uint16_t *tones, size_t tones_len, const int16_t *x,
                                         size_t x_len, const int16_t *y, size_t y_len,
                                         uint32_t reg, uint8_t *frame, size_t frame_len);
clevisroot_point before_clevisroot_map_label(uint8_t bits, uint32_t label);

/* Bit counts from the first to the last, evenly; shuffled over t, or rising along it. */
typedef struct {
    const char *name;
    uint8_t coded, first, last, rising, half_silent;
} load;

static const load loads[] = {
    {"15 bits coded", 1, 15, 15, 0, 0},
    {"15 bits uncoded", 0, 15, 15, 0, 0},
    {"0 to 15 bits coded", 1, 0, 15, 0, 0},
    {"8 bits coded", 1, 8, 8, 0, 0},
    {"2 bits coded", 1, 2, 2, 0, 0},
    {"0 to 15, rising", 1, 0, 15, 1, 0},
    {"0 to 15, 1 in 2 silent", 1, 0, 15, 0, 1},
};

static uint8_t coded, bits[TONES], frame[FRAME], back[FRAME];
static uint16_t gains[TONES], tones[TONES];
static int16_t x[TONES], y[TONES];
static size_t frame_len;

static uint32_t next_random(void)
{
    static uint64_t state = 1;
    state = state * 6364136223846793005u + 1442695040888963407u;
    return (uint32_t)(state >> 33);
}

static void fill(const load *l)
{
    size_t ones = 0;
    coded = l->coded;
    for (size_t k = 0; k < TONES; k++) {
        size_t counts = l->last - l->first + 1u;
        uint8_t b = (uint8_t)(l->first + (l->rising ? k * counts / TONES : next_random() % counts));
        uint16_t gain = b > 0 || next_random() % 2 == 0 ? 512 : 0;
        int silent = l->half_silent && next_random() % 2 == 0;
        bits[k] = silent ? 0 : b;
        gains[k] = silent ? 0 : gain;
        tones[k] = (uint16_t)k;
        ones += bits[k] == 1;
    }
    for (size_t k = 0; ones % 2 == 1; k++) { /* 1-bit tones come in pairs */
        ones -= bits[k] == 1;
        bits[k] = (uint8_t)(bits[k] == 1 ? 2 : bits[k]);
    }
    for (size_t k = TONES - 1; k > 0 && !l->rising; k--) {
        size_t other = next_random() % (k + 1);
        uint16_t tone = tones[k];
        tones[k] = tones[other];
        tones[other] = tone;
    }
    uint32_t size = clevisroot_check(coded, bits, TONES, gains, TONES, tones, TONES).size;
    frame_len = clevisroot_frame_bytes(size);
    for (size_t k = 0; k < frame_len; k++)
        frame[k] = (uint8_t)next_random();
    if (size % 8 > 0)
        frame[frame_len - 1] &= (uint8_t)((1u << size % 8) - 1);
}

#define TABLES coded, bits, TONES, gains, TONES, tones, TONES
#define ENCODE TABLES, frame, frame_len, RESET, x, TONES, y, TONES
#define READ TABLES, x, TONES, y, TONES, RESET, back, frame_len

typedef uint32_t call(uint32_t number);

static uint32_t encode_before(uint32_t number)
{
    (void)number;
    return before_clevisroot_encode(ENCODE).number;
}

static uint32_t encode_after(uint32_t number)
{
    (void)number;
    return clevisroot_encode(ENCODE).number;
}

static uint32_t read_before(uint32_t number)
{
    (void)number;
    return before_clevisroot_read(READ).number;
}

static uint32_t read_after(uint32_t number)
{
    (void)number;
    return clevisroot_read(READ).number;
}

static uint8_t label_bits;

static uint32_t map_before(uint32_t number)
{
    return before_clevisroot_map_label(label_bits, number % (1u << label_bits)).number;
}

static uint32_t map_after(uint32_t number)
{
    return clevisroot_map_label(label_bits, number % (1u << label_bits)).number;
}

/* Seconds of one call, of so many. */
static double turn(call *c, uint32_t calls)
{
    struct timespec from, to;
    uint32_t refused = 0;
    clock_gettime(CLOCK_MONOTONIC, &from);
    for (uint32_t k = 0; k < calls; k++)
        refused |= c(k);
    clock_gettime(CLOCK_MONOTONIC, &to);
    if (refused) {
        puts("a call was refused");
        exit(1);
    }
    return ((double)(to.tv_sec - from.tv_sec) + 1e-9 * (double)(to.tv_nsec - from.tv_nsec)) / calls;
}

static int by_size(const void *one, const void *other)
{
    double a = *(const double *)one, b = *(const double *)other;
    return (a > b) - (a < b);
}

static void measure(const char *what, const char *of, call *before, call *after, uint32_t calls)
{
    static double was[ROUNDS], is[ROUNDS], ratio[ROUNDS];
    for (size_t k = 0; k < ROUNDS; k++) {
        if (k % 2 == 0)
            was[k] = turn(before, calls);
        is[k] = turn(after, calls);
        if (k % 2 == 1)
            was[k] = turn(before, calls);
        ratio[k] = is[k] / was[k];
    }
    qsort(was, ROUNDS, sizeof *was, by_size);
    qsort(is, ROUNDS, sizeof *is, by_size);
    qsort(ratio, ROUNDS, sizeof *ratio, by_size);
    printf("%-12s%-24s%10.1f ns%10.1f ns%8.2f   %.2f to %.2f\n", what, of, 1e9 * was[ROUNDS / 2],
           1e9 * is[ROUNDS / 2], ratio[ROUNDS / 2], ratio[ROUNDS / 4], ratio[3 * ROUNDS / 4]);
}

static void hold(int alike, const char *of)
{
    if (!alike) {
        printf("the builds differ: %s\n", of);
        exit(1);
    }
}

static int same_answer(clevisroot_answer one, clevisroot_answer other)
{
    return one.number == other.number && one.place == other.place && one.size == other.size &&
           one.reg == other.reg;
}

/* Both builds write the same points, and both read the frame from them. */
static void same_symbol(const load *l)
{
    static int16_t x_before[TONES], y_before[TONES];
    clevisroot_answer before = before_clevisroot_encode(ENCODE);
    memcpy(x_before, x, sizeof x);
    memcpy(y_before, y, sizeof y);
    hold(same_answer(before, clevisroot_encode(ENCODE)) && memcmp(x, x_before, sizeof x) == 0 &&
             memcmp(y, y_before, sizeof y) == 0,
         l->name);
    memset(back, 0, sizeof back);
    before = before_clevisroot_read(READ);
    hold(memcmp(frame, back, frame_len) == 0, l->name);
    memset(back, 0, sizeof back);
    hold(same_answer(before, clevisroot_read(READ)) && memcmp(frame, back, frame_len) == 0, l->name);
}

/* Both builds give every label of these bits the same point. */
static void same_points(const char *name)
{
    for (uint32_t label = 0; label < 1u << label_bits; label++) {
        clevisroot_point before = before_clevisroot_map_label(label_bits, label);
        clevisroot_point after = clevisroot_map_label(label_bits, label);
        hold(before.number == after.number && before.x == after.x && before.y == after.y, name);
    }
}

int main(void)
{
    printf("medians of %d rounds, 4096 tones\n%-36s%13s%13s%8s   middle half\n", ROUNDS, "", "before",
           "after", "ratio");
    for (size_t k = 0; k < sizeof loads / sizeof *loads; k++) {
        fill(&loads[k]);
        same_symbol(&loads[k]);
        measure("encode", loads[k].name, encode_before, encode_after, SYMBOLS);
        measure("read", loads[k].name, read_before, read_after, SYMBOLS);
    }
    for (label_bits = 1; label_bits <= 15; label_bits++) {
        char name[16];
        snprintf(name, sizeof name, "%u bits", (unsigned)label_bits);
        same_points(name);
        measure("map label", name, map_before, map_after, LABELS);
    }
    return 0;
}
