/*
 * Every function where it is done, but for those of a tally (tally.c), the clip check (clip_check.c) and
 * the mappers (mappers.c): the bench figures, frames from every start, and what the headers write out
 * in C.
 */
#include "test.h"

static void check_and_reorder(void)
{
    static const uint16_t tones[A_TONES] = {7, 5, 2, 4, 3, 6};
    static const uint8_t entries[A_TONES] = {0, 0, 4, 2, 3, 2};
    table_set a = table_a();
    clevisroot_answer checked = clevisroot_check(TABLES(&a));
    CHECK(checked.number == CLEVISROOT_DONE && checked.place == 0);
    CHECK(checked.size == 5 && checked.reg == 0);

    uint16_t tones_out[A_TONES];
    uint8_t bits_out[A_TONES];
    clevisroot_answer ordered =
        clevisroot_reorder(TABLES(&a), tones_out, A_TONES, bits_out, A_TONES);
    CHECK(ordered.number == CLEVISROOT_DONE && ordered.size == 5 && ordered.reg == 0);
    CHECK(memcmp(tones_out, tones, sizeof tones) == 0);
    CHECK(memcmp(bits_out, entries, sizeof entries) == 0);
}

static void encode_and_read(void)
{
    static const int16_t frame_1_x[A_TONES] = {3, -1, 1, -1, 1, 1};
    static const int16_t frame_1_y[A_TONES] = {3, -1, 1, -1, 1, 1};
    table_set a = table_a();
    int16_t x[A_TONES], y[A_TONES];
    uint8_t frame = 1, back = 0;
    clevisroot_answer written =
        clevisroot_encode(TABLES(&a), &frame, 1, CLEVISROOT_RESET, x, A_TONES, y, A_TONES);
    CHECK(written.number == CLEVISROOT_DONE && written.place == 0);
    CHECK(written.size == 5 && written.reg == 2097151);
    CHECK(memcmp(x, frame_1_x, sizeof x) == 0 && memcmp(y, frame_1_y, sizeof y) == 0);

    clevisroot_answer read =
        clevisroot_read(TABLES(&a), x, A_TONES, y, A_TONES, CLEVISROOT_RESET, &back, 1);
    CHECK(read.number == CLEVISROOT_DONE && read.place == 0);
    CHECK(read.size == 5 && read.reg == written.reg && back == frame);
}

/* All 32 frames of bench table A there and back, the register handed on. */
static void every_frame(void)
{
    table_set a = table_a();
    int16_t x[A_TONES], y[A_TONES];
    uint32_t reg = CLEVISROOT_RESET;
    for (uint8_t frame = 0; frame < 32; frame++) {
        uint8_t back = 255;
        clevisroot_answer written =
            clevisroot_encode(TABLES(&a), &frame, 1, reg, x, A_TONES, y, A_TONES);
        clevisroot_answer read =
            clevisroot_read(TABLES(&a), x, A_TONES, y, A_TONES, reg, &back, 1);
        CHECK(written.number == CLEVISROOT_DONE && read.number == CLEVISROOT_DONE);
        CHECK(written.reg == read.reg && written.reg != reg && back == frame);
        reg = written.reg;
    }
}

/* A written symbol of bench table A: its own frame with total 0, and the register of exact reading. */
static void nearest_of_written(const int16_t *x, const int16_t *y, const uint8_t *frame,
                               size_t bytes, uint8_t start)
{
    table_set a = table_a();
    uint8_t back[2] = {255, 255}, work[A_WORK];
    clevisroot_nearest near =
        clevisroot_read_nearest(TABLES(&a), x, A_TONES, y, A_TONES, CLEVISROOT_RESET, back, bytes,
                                start, work, A_WORK);
    CHECK(near.number == CLEVISROOT_DONE && near.place == 0 && near.size == 5);
    CHECK(near.reg == 2097151 && near.total == 0);
    CHECK(memcmp(back, frame, bytes) == 0 && (bytes == 2 || back[1] == 255));
}

/*
 * All 32 frames of bench table A from every start: the points are those of start 0, and they are read
 * back with zeros around the frame, exactly and as the nearest.
 */
static void every_start(void)
{
    table_set a = table_a();
    int16_t x[A_TONES], y[A_TONES], x_at[A_TONES], y_at[A_TONES];
    for (unsigned k = 0; k < 8 * 32; k++) {
        uint8_t start = (uint8_t)(k / 32), frame = (uint8_t)(k % 32);
        uint8_t moved[2] = {(uint8_t)(frame << start), (uint8_t)(frame << start >> 8)};
        uint8_t back[2] = {255, 255};
        size_t bytes = clevisroot_frame_bytes_at(5, start);
        CHECK(bytes == (start <= 3 ? 1 : 2));
        clevisroot_answer at_0 =
            clevisroot_encode(TABLES(&a), &frame, 1, CLEVISROOT_RESET, x, A_TONES, y, A_TONES);
        clevisroot_answer written = clevisroot_encode_at(
            TABLES(&a), moved, bytes, start, CLEVISROOT_RESET, x_at, A_TONES, y_at, A_TONES);
        CHECK(memcmp(&written, &at_0, sizeof at_0) == 0 && written.number == CLEVISROOT_DONE);
        CHECK(memcmp(x_at, x, sizeof x) == 0 && memcmp(y_at, y, sizeof y) == 0);
        clevisroot_answer read = clevisroot_read_at(TABLES(&a), x, A_TONES, y, A_TONES,
                                                    CLEVISROOT_RESET, back, bytes, start);
        CHECK(memcmp(&read, &written, sizeof read) == 0);
        CHECK(memcmp(back, moved, bytes) == 0 && (bytes == 2 || back[1] == 255));
        nearest_of_written(x, y, moved, bytes, start);
    }
}

/* A random coordinate from -most to most. */
static int16_t coordinate(uint32_t *random, uint32_t most)
{
    return (int16_t)((int32_t)(next_random(random) % (2 * most + 1)) - (int32_t)most);
}

/* The total of one of bench table A's frames against received points; place 3 is monitored. */
static uint64_t total_of(uint8_t frame, const int16_t *x, const int16_t *y)
{
    table_set a = table_a();
    int16_t own_x[A_TONES], own_y[A_TONES];
    clevisroot_encode(TABLES(&a), &frame, 1, CLEVISROOT_RESET, own_x, A_TONES, own_y, A_TONES);
    uint64_t total = 0;
    for (size_t p = 0; p < A_TONES; p++)
        if (p != 3)
            total += squared_distance(x[p], y[p], own_x[p], own_y[p]);
    return total;
}

/* Random points, near the grid and up to the range: none of the 32 frames is nearer than the answer. */
static void nearest_of_noisy(void)
{
    static const uint32_t most[3] = {3, 6, 1023};
    table_set a = table_a();
    int16_t x[A_TONES], y[A_TONES];
    uint8_t work[A_WORK];
    uint32_t random = 2463534242u;
    for (unsigned k = 0; k < 3 * 500; k++) {
        uint8_t frame = 255;
        for (size_t p = 0; p < A_TONES; p++) {
            x[p] = coordinate(&random, most[k % 3]);
            y[p] = coordinate(&random, most[k % 3]);
        }
        clevisroot_nearest near = clevisroot_read_nearest(
            TABLES(&a), x, A_TONES, y, A_TONES, CLEVISROOT_RESET, &frame, 1, 0, work, A_WORK);
        CHECK(near.number == CLEVISROOT_DONE && near.place == 0 && near.size == 5);
        CHECK(near.reg == 2097151 && frame < 32 && near.total == total_of(frame, x, y));
        for (uint8_t other = 0; other < 32; other++)
            CHECK(total_of(other, x, y) >= near.total);
    }
}

/*
 * 4096 1-bit tones as far off as can be: both points of a tone are as far, so that every frame has the
 * same total.
 */
static void largest_total(uint8_t coded)
{
    static uint8_t bits[CLEVISROOT_MAX_TONES], frame[CLEVISROOT_MAX_TONES / 8];
    static uint8_t work[CLEVISROOT_MAX_WORK];
    static uint16_t gains[CLEVISROOT_MAX_TONES], tones[CLEVISROOT_MAX_TONES];
    static int16_t x[CLEVISROOT_MAX_TONES], y[CLEVISROOT_MAX_TONES];
    size_t n = CLEVISROOT_MAX_TONES;
    for (size_t k = 0; k < n; k++) {
        bits[k] = 1;
        gains[k] = 512;
        tones[k] = (uint16_t)k;
        x[k] = 1023;
        y[k] = -1023;
    }
    table_set set = {coded, bits, n, gains, n, tones, n};
    uint32_t size = clevisroot_check(TABLES(&set)).size;
    CHECK(size == (coded ? n - n / 4 - 4 : n));
    clevisroot_nearest near = clevisroot_read_nearest(
        TABLES(&set), x, n, y, n, 1, frame, clevisroot_frame_bytes(size), 0, work,
        clevisroot_work_bytes(coded, bits, n));
    CHECK(near.number == CLEVISROOT_DONE && near.size == size && near.reg == 1);
    CHECK(near.total == UINT64_C(4096) * (1022 * 1022 + 1024 * 1024));
}

/* Of table A's frame each of the 5 bits may be 1, and none before the start or after the end. */
static void bits_from(uint8_t start)
{
    table_set a = table_a();
    size_t bytes = clevisroot_frame_bytes_at(5, start);
    for (size_t k = 0; k < 8 * bytes; k++) {
        uint8_t frame[2] = {0, 0};
        frame[k / 8] = (uint8_t)(1u << (k % 8));
        uint32_t number = start <= k && k < start + 5u ? CLEVISROOT_DONE : CLEVISROOT_FRAME;
        hold_encode_at(&a, frame, bytes, start, 1, A_TONES, A_TONES, number, 0);
    }
}

/* One silent tone, so L is 0: a byte of zeros from start 1 to 7, and none from start 0. */
static void no_bits(uint8_t start)
{
    static const uint8_t bits = 0;
    static const uint16_t gain = 0, tone = 0;
    table_set set = {0, &bits, 1, &gain, 1, &tone, 1};
    int16_t x = 1, y = 1;
    size_t bytes = start ? 1 : 0;
    CHECK(clevisroot_frame_bytes_at(0, start) == bytes);
    for (unsigned byte = 0; byte < 256; byte++) {
        uint8_t frame = (uint8_t)byte;
        hold_encode_at(&set, &frame, 1, start, 1, 1, 1,
                       bytes == 1 && byte == 0 ? CLEVISROOT_DONE : CLEVISROOT_FRAME, 0);
    }
    uint8_t frame = 0, back = 255;
    clevisroot_answer a = clevisroot_encode_at(TABLES(&set), &frame, bytes, start, 1, &x, 1, &y, 1);
    CHECK(a.number == CLEVISROOT_DONE && a.size == 0 && x == 0 && y == 0);
    clevisroot_answer b = clevisroot_read_at(TABLES(&set), &x, 1, &y, 1, 1, &back, bytes, start);
    CHECK(b.number == CLEVISROOT_DONE && b.size == 0 && b.reg == a.reg);
    CHECK(back == (start ? 0 : 255));
    hold_read_at(&set, &x, 1, &y, 1, 1, 1 - bytes, start, CLEVISROOT_ROOM, 0);
}

/* A silent tone draws two filler bits as a monitored one does, and its point is (0, 0). */
static void silent_tone(void)
{
    table_set a = table_a();
    uint16_t gains[A_CARRIERS];
    memcpy(gains, a_gains, sizeof gains);
    gains[4] = 0;
    a.gains = gains;
    int16_t x[A_TONES], y[A_TONES];
    uint8_t frame = 0, back = 1;
    clevisroot_answer written =
        clevisroot_encode(TABLES(&a), &frame, 1, CLEVISROOT_RESET, x, A_TONES, y, A_TONES);
    CHECK(written.number == CLEVISROOT_DONE && written.size == 5 && written.reg == 2097151);
    CHECK(x[3] == 0 && y[3] == 0);
    clevisroot_answer read =
        clevisroot_read(TABLES(&a), x, A_TONES, y, A_TONES, CLEVISROOT_RESET, &back, 1);
    CHECK(read.number == CLEVISROOT_DONE && read.reg == written.reg && back == frame);
}

/* Any mode byte but 0 is coded. */
static void modes(void)
{
    table_set a = table_a();
    a.coded = 255;
    CHECK(clevisroot_check(TABLES(&a)).size == 5);
    a.coded = 0;
    CHECK(clevisroot_check(TABLES(&a)).size == 11);
}

/* The first 23 bits are 1; then each is d(n-18) xor d(n-23). */
static void filler_bits(void)
{
    uint8_t d[200];
    uint32_t reg = CLEVISROOT_RESET;
    for (int n = 0; n < 200; n++) {
        clevisroot_drawn drawn = clevisroot_draw(reg);
        CHECK(drawn.number == CLEVISROOT_DONE && drawn.bit == (reg & 1));
        d[n] = (uint8_t)drawn.bit;
        CHECK(d[n] == (n < 23 ? 1 : d[n - 18] ^ d[n - 23]));
        reg = drawn.reg;
    }
}

static void version(void)
{
    int major = 0, minor = 0, patch = 0;
    CHECK(strcmp(clevisroot_version(), CLEVISROOT_VERSION_TEXT) == 0);
    CHECK(sscanf(clevisroot_version(), "%d.%d.%d", &major, &minor, &patch) == 3);
    CHECK(CLEVISROOT_VERSION == 10000 * major + 100 * minor + patch);
}

/* 4095 and 4096 entries make 2048 pairs. */
static void work_bytes(void)
{
    static uint8_t bits[CLEVISROOT_MAX_TONES];
    size_t n = CLEVISROOT_MAX_TONES;
    memset(bits, 2, n);
    CHECK(clevisroot_work_bytes(1, bits, n) == CLEVISROOT_MAX_WORK);
    CHECK(clevisroot_work_bytes(1, bits, n - 1) == CLEVISROOT_MAX_WORK);
    CHECK(clevisroot_work_bytes(1, bits, 4) == 32 && clevisroot_work_bytes(1, bits, 5) == 48);
    memset(bits, 1, n);
    CHECK(clevisroot_work_bytes(1, bits, n) == CLEVISROOT_MAX_WORK / 2);
    CHECK(clevisroot_work_bytes(1, bits, 10) == 48 && clevisroot_work_bytes(0, bits, n) == 0);
}

static void header(void)
{
    CHECK(clevisroot_frame_bytes(0) == 0 && clevisroot_frame_bytes(1) == 1);
    CHECK(clevisroot_frame_bytes(8) == 1 && clevisroot_frame_bytes(9) == 2);
    CHECK(clevisroot_frame_bytes(CLEVISROOT_MAX_TONES * 15) == 7680);
    CHECK(clevisroot_frame_bytes_at(CLEVISROOT_MAX_TONES * 15, 7) == CLEVISROOT_MAX_FRAME);
    CHECK(clevisroot_frame_bytes_at(0, 1) == 1 && clevisroot_frame_bytes_at(0, 255) == 32);
    CHECK(clevisroot_frame_bytes_at(1, 7) == 1 && clevisroot_frame_bytes_at(2, 7) == 2);
    CHECK(clevisroot_work_bytes(1, a_bits, A_CARRIERS) == A_WORK);
    CHECK(clevisroot_work_bytes(255, a_bits, A_CARRIERS) == A_WORK);
    CHECK(clevisroot_work_bytes(0, a_bits, A_CARRIERS) == 0);
    CHECK(strcmp(clevisroot_refusal_name(CLEVISROOT_DONE), "DONE") == 0);
    CHECK(strcmp(clevisroot_refusal_name(CLEVISROOT_LABEL), "LABEL") == 0);
    CHECK(strcmp(clevisroot_refusal_name(9), "UNKNOWN") == 0);
    CHECK(strcmp(clevisroot_refusal_name(17), "UNKNOWN") == 0);
    CHECK(strcmp(clevisroot_refusal_name(21), "UNKNOWN") == 0);
    CHECK(strcmp(clevisroot_refusal_name(CLEVISROOT_FULL), "FULL") == 0);
    CHECK(strcmp(clevisroot_refusal_name(CLEVISROOT_RANGE), "RANGE") == 0);
    CHECK(strcmp(clevisroot_refusal_name(24), "UNKNOWN") == 0);
    CHECK(strcmp(clevisroot_refusal_name(UINT32_MAX), "UNKNOWN") == 0);
    CHECK(strcmp(clevisroot_clip_name(CLEVISROOT_CLIP_STRAIGHT), "STRAIGHT") == 0);
    CHECK(strcmp(clevisroot_clip_name(CLEVISROOT_CLIP_CANT_TELL), "CANT_TELL") == 0);
    CHECK(strcmp(clevisroot_clip_name(0), "UNKNOWN") == 0);
    CHECK(strcmp(clevisroot_clip_name(5), "UNKNOWN") == 0);
    CHECK(strcmp(clevisroot_clip_name(UINT32_MAX), "UNKNOWN") == 0);
}

int main(void)
{
    check_and_reorder();
    encode_and_read();
    every_frame();
    every_start();
    nearest_of_noisy();
    largest_total(0);
    largest_total(1);
    for (uint8_t start = 0; start < 8; start++) {
        bits_from(start);
        no_bits(start);
    }
    silent_tone();
    modes();
    filler_bits();
    version();
    header();
    work_bytes();
    return verdict("calls");
}
