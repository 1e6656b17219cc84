/*
 * Every refusal number of every function: number and place, L 0, the register or the tally as it came,
 * and no byte written. At the end each function has given exactly the numbers that the header lists.
 */
#include "test.h"

/* The numbers that each function can give: a bit for each. */
#define UP_TO_8 0x1ffu
static const uint32_t can_give[FUNCTIONS] = {
    UP_TO_8,
    UP_TO_8 | 1u << 10,
    UP_TO_8 | 1u << 10 | 1u << 11 | 1u << 12,
    UP_TO_8 | 1u << 10 | 1u << 11 | 1u << 12,
    UP_TO_8 | 1u << 10 | 1u << 12 | 1u << 13 | 1u << 14 | 1u << 15,
    UP_TO_8 | 1u << 10 | 1u << 11 | 1u << 12 | 1u << 13 | 1u << 14 | 1u << 15,
    UP_TO_8 | 1u << 10 | 1u << 11 | 1u << 12 | 1u << 23,
    UP_TO_8 | 1u << 10 | 1u << 12,
    1u | 1u << 16,
    1u | 1u << 13 | 1u << 16,
    1u | 1u << 16,
    1u | 1u << 13 | 1u << 16,
    1u | 1u << 12,
    1u | 1u << 11 | 1u << 22,
    1u | 1u << 11 | 1u << 22,
};

static void reorder(const table_set *set, size_t tones_len, size_t bits_len, uint32_t number,
                    uint32_t place)
{
    uint16_t tones[A_TONES + 1];
    uint8_t bits[A_TONES + 1];
    memset(tones, 0x5a, sizeof tones);
    memset(bits, 0x5a, sizeof bits);
    hold(REORDERING, clevisroot_reorder(TABLES(set), tones, tones_len, bits, bits_len), number,
         place, 0);
    if (number != CLEVISROOT_DONE)
        CHECK(untouched(tones, sizeof tones) && untouched(bits, sizeof bits));
}

/* Without a start, and with start 0. */
static void encode(const table_set *set, const uint8_t *frame, size_t frame_len, uint32_t reg,
                   size_t x_len, size_t y_len, uint32_t number, uint32_t place)
{
    int16_t x[A_TONES + 1], y[A_TONES + 1];
    memset(x, 0x5a, sizeof x);
    memset(y, 0x5a, sizeof y);
    hold(ENCODING, clevisroot_encode(TABLES(set), frame, frame_len, reg, x, x_len, y, y_len),
         number, place, reg);
    if (number != CLEVISROOT_DONE)
        CHECK(untouched(x, sizeof x) && untouched(y, sizeof y));
    hold_encode_at(set, frame, frame_len, 0, reg, x_len, y_len, number, place);
}

/* Without a start, and with start 0. */
static void read_points(const table_set *set, const int16_t *x, size_t x_len, const int16_t *y,
                        size_t y_len, uint32_t reg, size_t frame_len, uint32_t number,
                        uint32_t place)
{
    uint8_t frame[2];
    memset(frame, 0x5a, sizeof frame);
    hold(READING, clevisroot_read(TABLES(set), x, x_len, y, y_len, reg, frame, frame_len), number,
         place, reg);
    if (number != CLEVISROOT_DONE)
        CHECK(untouched(frame, sizeof frame));
    hold_read_at(set, x, x_len, y, y_len, reg, frame_len, 0, number, place);
}

static const int16_t zeros[A_TONES + 1];
static const int16_t far[A_TONES + 1] = {1024, 1024, 1024, 1024, 1024, 1024, 1024};
static const uint8_t frame_0[MOST_LENT];

/* All eight calls with tables refuse these alike, whatever else is wrong. */
static void tables(const table_set *set, uint32_t number, uint32_t place)
{
    hold(CHECKING, clevisroot_check(TABLES(set)), number, place, 0);
    reorder(set, 1, 1, number, place);
    encode(set, frame_0, 2, 0, 1, 1, number, place);
    hold_encode_at(set, frame_0, 2, 8, 0, 1, 1, number, place);
    read_points(set, zeros, 1, zeros, 1, 0, 2, number, place);
    hold_read_at(set, zeros, 1, zeros, 1, 0, 2, 8, number, place);
    hold_read_nearest(set, far, 1, far, 1, 0, 2, 8, 1, number, place);
    hold_clip(set, zeros, 1, zeros, 1, 0, number, place, 0);
}

static void sizes(void)
{
    static const uint8_t many_bits[CLEVISROOT_MAX_TONES + 1];
    static const uint16_t many_gains[CLEVISROOT_MAX_TONES + 1];
    static const uint16_t more_tones[A_CARRIERS + 1] = {0, 1, 2, 3, 4, 5, 6, 7, 0};
    table_set a = table_a();
    a.gains_len = A_CARRIERS - 1;
    tables(&a, CLEVISROOT_SIZE, 0);
    a = table_a();
    a.tones_len = 0;
    tables(&a, CLEVISROOT_SIZE, 0);
    a = table_a();
    a.tones = more_tones;
    a.tones_len = A_CARRIERS + 1;
    tables(&a, CLEVISROOT_SIZE, 0);
    a = table_a();
    a.bits_len = a.gains_len = 0;
    tables(&a, CLEVISROOT_SIZE, 0);
    a = table_a();
    a.bits = many_bits;
    a.gains = many_gains;
    a.bits_len = a.gains_len = CLEVISROOT_MAX_TONES + 1;
    tables(&a, CLEVISROOT_SIZE, 0);
}

/* One entry of one table of bench table A changed. */
static void changed_tone(size_t at, uint16_t tone, uint32_t number, uint32_t place)
{
    table_set a = table_a();
    uint16_t tones[A_TONES];
    memcpy(tones, a_tones, sizeof tones);
    tones[at] = tone;
    a.tones = tones;
    tables(&a, number, place);
}

static void changed_bits(size_t at, uint8_t count, uint32_t number, uint32_t place)
{
    table_set a = table_a();
    uint8_t bits[A_CARRIERS];
    memcpy(bits, a_bits, sizeof bits);
    bits[at] = count;
    a.bits = bits;
    tables(&a, number, place);
}

static void changed_gain(size_t at, uint16_t gain, uint32_t number, uint32_t place)
{
    table_set a = table_a();
    uint16_t gains[A_CARRIERS];
    memcpy(gains, a_gains, sizeof gains);
    gains[at] = gain;
    a.gains = gains;
    tables(&a, number, place);
}

static void table_entries(void)
{
    changed_tone(2, 8, CLEVISROOT_TONE, 2);
    changed_tone(5, 65535, CLEVISROOT_TONE, 5);
    changed_tone(5, 7, CLEVISROOT_TWICE, 5);
    changed_bits(1, 16, CLEVISROOT_BITS, 1);
    changed_bits(7, 255, CLEVISROOT_BITS, 7);
    changed_bits(0, 1, CLEVISROOT_STRAY, 0);
    changed_gain(1, 1, CLEVISROOT_STRAY, 1);
    changed_gain(3, 4096, CLEVISROOT_GAIN, 3);
    changed_gain(5, 0, CLEVISROOT_GAIN, 5);
    changed_bits(3, 2, CLEVISROOT_ODD, 0);
    changed_bits(4, 1, CLEVISROOT_ODD, 0);
}

/* Three entries are too few for two coded pairs. */
static void few(void)
{
    static const uint8_t bits[3] = {2, 2, 2};
    static const uint16_t gains[3] = {512, 512, 512}, tones[3] = {0, 1, 2};
    table_set set = {1, bits, 3, gains, 3, tones, 3};
    tables(&set, CLEVISROOT_FEW, 0);
    set.coded = 0;
    hold(CHECKING, clevisroot_check(TABLES(&set)), CLEVISROOT_DONE, 0, 0);
}

/* ROOM before SEED, with every length of x and of y. */
static void clip_rooms(void)
{
    table_set a = table_a();
    for (size_t k = 0; k < (A_TONES + 2) * (A_TONES + 2); k++) {
        size_t x_len = k / (A_TONES + 2), y_len = k % (A_TONES + 2);
        int exact = x_len == A_TONES && y_len == A_TONES;
        hold_clip(&a, zeros, x_len, zeros, y_len, 0, exact ? CLEVISROOT_SEED : CLEVISROOT_ROOM, 0,
                  0);
        hold_clip(&a, zeros, x_len, zeros, y_len, 1, exact ? CLEVISROOT_DONE : CLEVISROOT_ROOM, 0,
                  exact ? CLEVISROOT_CLIP_NEITHER : 0);
    }
}

static void rooms(void)
{
    table_set a = table_a();
    for (size_t len = 0; len <= A_TONES + 1; len++) {
        uint32_t number = len == A_TONES ? CLEVISROOT_DONE : CLEVISROOT_ROOM;
        reorder(&a, len, A_TONES, number, 0);
        reorder(&a, A_TONES, len, number, 0);
        encode(&a, frame_0, 1, 1, len, A_TONES, number, 0);
        encode(&a, frame_0, 1, 1, A_TONES, len, number, 0);
    }
    read_points(&a, zeros, 5, zeros, 6, 0, 1, CLEVISROOT_ROOM, 0);
    read_points(&a, zeros, 6, zeros, 7, 0, 1, CLEVISROOT_ROOM, 0);
    read_points(&a, zeros, 6, zeros, 6, 0, 0, CLEVISROOT_ROOM, 0);
    read_points(&a, zeros, 6, zeros, 6, 0, 2, CLEVISROOT_ROOM, 0);
    clip_rooms();
}

static void frames_and_registers(void)
{
    static const uint8_t unused_bit = 32;
    table_set a = table_a();
    encode(&a, frame_0, 0, 0, A_TONES, A_TONES, CLEVISROOT_FRAME, 0);
    encode(&a, frame_0, 2, 0, A_TONES, A_TONES, CLEVISROOT_FRAME, 0);
    encode(&a, &unused_bit, 1, 0, A_TONES, A_TONES, CLEVISROOT_FRAME, 0);
    static const uint32_t wrong[] = {0, CLEVISROOT_RESET + 1, UINT32_MAX};
    for (size_t k = 0; k < 3; k++) {
        encode(&a, frame_0, 1, wrong[k], A_TONES, A_TONES, CLEVISROOT_SEED, 0);
        read_points(&a, zeros, 6, zeros, 6, wrong[k], 1, CLEVISROOT_SEED, 0);
        hold_clip(&a, zeros, 6, zeros, 6, wrong[k], CLEVISROOT_SEED, 0, 0);
        clevisroot_drawn drawn = clevisroot_draw(wrong[k]);
        given[DRAWING] |= 1u << drawn.number;
        CHECK(drawn.number == CLEVISROOT_SEED && drawn.bit == 0 && drawn.reg == wrong[k]);
    }
    given[DRAWING] |= 1u << clevisroot_draw(1).number;
}

/* L = 5 bits from a start: ROOM before FRAME before SEED, with every count of bytes. */
static void lengths_from(uint8_t start)
{
    table_set a = table_a();
    uint32_t otherwise = start <= 7 ? CLEVISROOT_SEED : CLEVISROOT_FRAME;
    for (size_t len = 0; len <= MOST_LENT; len++) {
        int exact = len == clevisroot_frame_bytes_at(5, start);
        hold_encode_at(&a, frame_0, len, start, 0, 6, 5, CLEVISROOT_ROOM, 0);
        hold_encode_at(&a, frame_0, len, start, 0, 6, 6, exact ? otherwise : CLEVISROOT_FRAME, 0);
        hold_read_at(&a, zeros, 6, zeros, 7, 0, len, start, CLEVISROOT_ROOM, 0);
        hold_read_at(&a, zeros, 6, zeros, 6, 0, len, start, exact ? otherwise : CLEVISROOT_ROOM, 0);
        hold_read_nearest(&a, far, 6, far, 5, 0, len, start, A_WORK, CLEVISROOT_ROOM, 0);
        hold_read_nearest(&a, far, 6, far, 6, 0, len, start, A_WORK - 1, CLEVISROOT_ROOM, 0);
        hold_read_nearest(&a, far, 6, far, 6, 0, len, start, A_WORK,
                          exact ? otherwise : CLEVISROOT_ROOM, 0);
    }
}

/* Every length of the working buffer, coded and uncoded; all else is right. */
static void work_lengths(void)
{
    table_set a = table_a();
    for (unsigned k = 0; k < 2 * (MOST_WORK + 1); k++) {
        size_t len = k / 2;
        a.coded = k % 2;
        uint32_t number = len == (a.coded ? A_WORK : 0) ? CLEVISROOT_DONE : CLEVISROOT_ROOM;
        hold_read_nearest(&a, zeros, 6, zeros, 6, 1, a.coded ? 1 : 2, 0, len, number, 0);
    }
}

/*
 * A coordinate outside the range at one place, of data, monitored (3) or silent: refused there, if not
 * at an earlier place, and not refused at the range's ends.
 */
static void ranges(uint16_t gain)
{
    static const int16_t outside[] = {1024, -1024, INT16_MAX, INT16_MIN};
    table_set a = table_a();
    uint16_t gains[A_CARRIERS];
    memcpy(gains, a_gains, sizeof gains);
    gains[4] = gain;
    a.gains = gains;
    for (uint32_t k = 0; k < 4 * A_TONES; k++) {
        int16_t x[A_TONES] = {0}, y[A_TONES] = {0};
        uint32_t place = k / 4;
        x[place] = outside[k % 4];
        hold_read_nearest(&a, x, 6, zeros, 6, 1, 1, 0, A_WORK, CLEVISROOT_RANGE, place);
        hold_read_nearest(&a, zeros, 6, x, 6, 1, 1, 0, A_WORK, CLEVISROOT_RANGE, place);
        y[A_TONES - 1] = -1024;
        hold_read_nearest(&a, x, 6, y, 6, 1, 1, 0, A_WORK, CLEVISROOT_RANGE, place);
        hold_read_nearest(&a, x, 6, y, 6, 0, 1, 0, A_WORK, CLEVISROOT_SEED, 0);
        x[place] = (int16_t)(k % 2 ? -1023 : 1023);
        hold_read_nearest(&a, x, 6, x, 6, 1, 1, 0, A_WORK, CLEVISROOT_DONE, 0);
    }
}

static void starts(void)
{
    for (unsigned start = 0; start < 256; start++)
        lengths_from((uint8_t)start);
}

/* Bench table A's frame 0, with the point at one place changed, read from every start. */
static void changed_point(size_t at, int16_t to_x, int16_t to_y, uint32_t number, uint32_t place)
{
    table_set a = table_a();
    int16_t x[A_TONES], y[A_TONES];
    clevisroot_encode(TABLES(&a), frame_0, 1, CLEVISROOT_RESET, x, A_TONES, y, A_TONES);
    x[at] = to_x;
    y[at] = to_y;
    read_points(&a, x, A_TONES, y, A_TONES, CLEVISROOT_RESET, 1, number, place);
    for (uint8_t start = 0; start < 8; start++)
        hold_read_at(&a, x, A_TONES, y, A_TONES, CLEVISROOT_RESET,
                     clevisroot_frame_bytes_at(5, start), start, number, place);
}

static void points(void)
{
    changed_point(1, 3, 1, CLEVISROOT_OFFGRID, 1);
    changed_point(5, INT16_MIN, INT16_MAX, CLEVISROOT_OFFGRID, 5);
    changed_point(3, 0, 0, CLEVISROOT_OFFGRID, 3);
    changed_point(3, 1, 1, CLEVISROOT_MONITOR, 3);
    changed_point(0, 1, -1, CLEVISROOT_TRELLIS, 0);
    changed_point(5, -1, -1, CLEVISROOT_TRELLIS, 1);
    changed_point(0, 1, 1, CLEVISROOT_DONE, 0);
}

static void map_label(const mapper *m, uint8_t bits, uint32_t label, uint32_t number)
{
    clevisroot_point point = m->map_label(bits, label);
    given[m->mapping] |= 1u << point.number;
    CHECK(point.number == number);
    if (number != CLEVISROOT_DONE)
        CHECK(point.x == 0 && point.y == 0);
}

static void read_point(const mapper *m, uint8_t bits, int16_t x, int16_t y, uint32_t number)
{
    clevisroot_label label = m->read_point(bits, x, y);
    given[m->labelling] |= 1u << label.number;
    CHECK(label.number == number);
    if (number != CLEVISROOT_DONE)
        CHECK(label.label == 0);
}

static void one_tone(const mapper *m)
{
    map_label(m, 0, 0, CLEVISROOT_LABEL);
    map_label(m, 16, 0, CLEVISROOT_LABEL);
    map_label(m, 255, 0, CLEVISROOT_LABEL);
    map_label(m, 4, 16, CLEVISROOT_LABEL);
    map_label(m, 15, UINT32_MAX, CLEVISROOT_LABEL);
    map_label(m, 15, 32767, CLEVISROOT_DONE);
    read_point(m, 0, 0, 0, CLEVISROOT_LABEL);
    read_point(m, 16, 1, 1, CLEVISROOT_LABEL);
    read_point(m, 2, 3, 1, CLEVISROOT_OFFGRID);
    read_point(m, 2, INT16_MIN, INT16_MIN, CLEVISROOT_OFFGRID);
    read_point(m, 2, -1, 1, CLEVISROOT_DONE);
}

/* The answer has this number, and of a refusal the tally that was given. */
static void hold_tallied(int function, clevisroot_tallied t, uint32_t number,
                         clevisroot_tally before)
{
    given[function] |= 1u << t.number;
    CHECK(t.number == number);
    if (number == CLEVISROOT_DONE)
        CHECK(t.tally.symbols == before.symbols + 1);
    else
        CHECK(same_figures(t.tally, before));
}

static const uint8_t long_frame[CLEVISROOT_MAX_FRAME + 1];

static void count_read(uint32_t symbols, size_t sent_len, size_t read_len, uint32_t number)
{
    clevisroot_tally before = {symbols, 1, 2, 3, 4};
    hold_tallied(COUNTING_READ,
                 clevisroot_tally_read(before, long_frame, sent_len, long_frame, read_len), number,
                 before);
}

static void count_refused(uint32_t symbols, size_t sent_len, uint32_t refusal, uint32_t number)
{
    clevisroot_tally before = {symbols, 1, 2, 3, CLEVISROOT_NONE_REFUSED};
    hold_tallied(COUNTING_REFUSED, clevisroot_tally_refused(before, long_frame, sent_len, refusal),
                 number, before);
}

/* Each reason for FRAME, in a tally of so many symbols; one that is full gives FULL instead. */
static void tallies(uint32_t symbols)
{
    size_t most = CLEVISROOT_MAX_FRAME;
    int full = symbols >= CLEVISROOT_MAX_SYMBOLS;
    uint32_t done = full ? CLEVISROOT_FULL : CLEVISROOT_DONE;
    uint32_t frame = full ? CLEVISROOT_FULL : CLEVISROOT_FRAME;
    count_read(symbols, 0, 0, done);
    count_read(symbols, most, most, done);
    count_read(symbols, 0, 1, frame);
    count_read(symbols, 1, 0, frame);
    count_read(symbols, most, most - 1, frame);
    count_read(symbols, most, most + 1, frame);
    count_read(symbols, most + 1, most, frame);
    count_read(symbols, most + 1, most + 1, frame);
    count_refused(symbols, 0, 1, done);
    count_refused(symbols, most, UINT32_MAX, done);
    count_refused(symbols, most, 0, frame);
    count_refused(symbols, most + 1, 1, frame);
    count_refused(symbols, most + 1, 0, frame);
}

/* Tables that pass, so that every function is seen to answer 0 too. */
static void done(void)
{
    table_set a = table_a();
    hold(CHECKING, clevisroot_check(TABLES(&a)), CLEVISROOT_DONE, 0, 0);
}

int main(void)
{
    sizes();
    table_entries();
    few();
    rooms();
    frames_and_registers();
    starts();
    work_lengths();
    ranges(512);
    ranges(0);
    points();
    one_tone(&mappers[0]);
    one_tone(&mappers[1]);
    tallies(0);
    tallies(CLEVISROOT_MAX_SYMBOLS - 1);
    tallies(CLEVISROOT_MAX_SYMBOLS);
    tallies(CLEVISROOT_MAX_SYMBOLS + 1);
    tallies(UINT32_MAX);
    done();
    for (int function = 0; function < FUNCTIONS; function++)
        CHECK(given[function] == can_give[function]);
    return verdict("refusals");
}
