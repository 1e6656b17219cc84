/*
 * The clip check: its four answers, that it looks at the first monitored tone in t' and at nothing else,
 * and that it tells what two readings tell.
 */
#include "test.h"

#define TONES 64

static uint32_t random_state = 2463534242u;

/* The check is done and tells this clip, by its number and its name. */
static void hold_named(const table_set *set, const int16_t *x, const int16_t *y, uint32_t reg,
                       uint32_t clip, const char *name)
{
    size_t n = set->tones_len;
    hold_clip(set, x, n, y, n, reg, CLEVISROOT_DONE, 0, clip);
    uint32_t told = clevisroot_clip_check(LISTS(set), x, n, y, n, reg).clip;
    CHECK(strcmp(clevisroot_clip_name(told), name) == 0);
}

/* Bench table A: tone 4 is monitored, at place 3. */
static void four_answers(void)
{
    table_set a = table_a();
    int16_t x[A_TONES], y[A_TONES];
    const uint8_t frame = 21;
    clevisroot_encode(TABLES(&a), &frame, 1, CLEVISROOT_RESET, x, A_TONES, y, A_TONES);
    CHECK(x[3] == -1 && y[3] == -1);
    hold_named(&a, x, y, CLEVISROOT_RESET, CLEVISROOT_CLIP_STRAIGHT, "STRAIGHT");
    turn(x, A_TONES);
    turn(y, A_TONES);
    hold_named(&a, x, y, CLEVISROOT_RESET, CLEVISROOT_CLIP_TURNED, "TURNED");
    y[3] = -1;
    hold_named(&a, x, y, CLEVISROOT_RESET, CLEVISROOT_CLIP_NEITHER, "NEITHER");

    uint16_t gains[A_CARRIERS];
    memcpy(gains, a_gains, sizeof gains);
    gains[4] = 0;
    a.gains = gains;
    hold_named(&a, x, y, CLEVISROOT_RESET, CLEVISROOT_CLIP_CANT_TELL, "CANT_TELL");
}

static uint32_t clip_of_point(int16_t x, int16_t y, int16_t own_x, int16_t own_y)
{
    if (x == own_x && y == own_y)
        return CLEVISROOT_CLIP_STRAIGHT;
    if (x == -own_x && y == -own_y)
        return CLEVISROOT_CLIP_TURNED;
    return CLEVISROOT_CLIP_NEITHER;
}

/*
 * Every coordinate at the monitored tone of bench table A, beside any other points. Of register 1 its
 * point is (1, -1).
 */
static void every_coordinate(void)
{
    table_set a = table_a();
    int16_t x[A_TONES], y[A_TONES];
    for (size_t p = 0; p < A_TONES; p++) {
        x[p] = (int16_t)next_random(&random_state);
        y[p] = INT16_MIN;
    }
    for (int32_t coordinate = INT16_MIN; coordinate <= INT16_MAX; coordinate++)
        for (unsigned k = 0; k < 4; k++) {
            int16_t one = (int16_t)coordinate, other = k & 1 ? 1 : -1;
            x[3] = k & 2 ? one : other;
            y[3] = k & 2 ? other : one;
            hold_clip(&a, x, A_TONES, y, A_TONES, 1, CLEVISROOT_DONE, 0,
                      clip_of_point(x[3], y[3], 1, -1));
        }
}

/* A table set whose lists can be changed. */
static uint8_t bits[TONES];
static uint16_t gains[TONES], tones[TONES];
static const table_set own = {1, bits, TONES, gains, TONES, tones, TONES};

/* In order of t: so many silent tones, a monitored one, and 2 bits at all others. */
static void load_behind(size_t silent)
{
    for (size_t k = 0; k < TONES; k++) {
        bits[k] = k <= silent ? 0 : 2;
        gains[k] = k < silent ? 0 : 512;
        tones[k] = (uint16_t)k;
    }
}

/*
 * Each silent tone before the monitored one draws two bits. Of its own two the first gives the sign of Y,
 * the second that of X.
 */
static void behind_silent(void)
{
    int16_t x[TONES] = {0}, y[TONES] = {0};
    for (size_t silent = 0; silent <= TONES - 5; silent++) {
        uint32_t given_reg = 1 + next_random(&random_state) % CLEVISROOT_RESET, reg = given_reg;
        load_behind(silent);
        for (size_t k = 0; k < 2 * silent; k++)
            reg = clevisroot_draw(reg).reg;
        int16_t own_x = reg & 2 ? -1 : 1, own_y = reg & 1 ? -1 : 1;
        for (unsigned k = 0; k < 4; k++) {
            x[silent] = k & 1 ? -1 : 1;
            y[silent] = k & 2 ? -1 : 1;
            hold_clip(&own, x, TONES, y, TONES, given_reg, CLEVISROOT_DONE, 0,
                      clip_of_point(x[silent], y[silent], own_x, own_y));
        }
    }
}

/* Monitored at places 1 and 3; of register 4 their points are (1, 1) and (1, -1). */
static void second_monitored(void)
{
    static const int16_t wrong[3] = {-1, 0, INT16_MIN};
    int16_t x[TONES] = {0}, y[TONES] = {0};
    load_behind(0);
    bits[0] = 2;
    bits[1] = bits[3] = 0;
    for (size_t k = 0; k < 3; k++) {
        x[1] = y[1] = 1;
        x[3] = y[3] = wrong[k];
        hold_clip(&own, x, TONES, y, TONES, 4, CLEVISROOT_DONE, 0, CLEVISROOT_CLIP_STRAIGHT);
        x[1] = y[1] = -1;
        x[3] = 1;
        hold_clip(&own, x, TONES, y, TONES, 4, CLEVISROOT_DONE, 0, CLEVISROOT_CLIP_TURNED);
    }
}

/*
 * Tones in random order with 0 to 3 bits, of which an even number have 1; the last in t is monitored, so
 * that one is.
 */
static void load_random(void)
{
    size_t ones = 0, last_one = 0;
    for (size_t k = 0; k < TONES; k++) {
        size_t other = next_random(&random_state) % (k + 1);
        tones[k] = tones[other];
        tones[other] = (uint16_t)k;
        bits[k] = (uint8_t)(next_random(&random_state) % 4);
        gains[k] = bits[k] || next_random(&random_state) % 8 == 0 ? 512 : 0;
    }
    bits[tones[TONES - 1]] = 0;
    gains[tones[TONES - 1]] = 512;
    for (size_t k = 0; k < TONES; k++)
        if (bits[k] == 1) {
            ones++;
            last_one = k;
        }
    if (ones % 2 == 1)
        bits[last_one] = 2;
}

static int is_read(const int16_t *x, const int16_t *y, uint32_t reg, size_t bytes, uint8_t start)
{
    uint8_t frame[TONES];
    return clevisroot_read_at(TABLES(&own), x, TONES, y, TONES, reg, frame, bytes, start).number ==
           CLEVISROOT_DONE;
}

/* A written symbol and its turned one are told as two readings tell them, at every start. */
static void two_readings(uint32_t size, uint32_t reg, uint8_t start)
{
    uint8_t frame[TONES];
    int16_t x[TONES], y[TONES], turned_x[TONES], turned_y[TONES];
    size_t bytes = clevisroot_frame_bytes_at(size, start);
    random_frame(&random_state, frame, size, start);
    clevisroot_encode_at(TABLES(&own), frame, bytes, start, reg, x, TONES, y, TONES);
    memcpy(turned_x, x, sizeof x);
    memcpy(turned_y, y, sizeof y);
    turn(turned_x, TONES);
    turn(turned_y, TONES);
    CHECK(is_read(x, y, reg, bytes, start) && !is_read(turned_x, turned_y, reg, bytes, start));
    hold_clip(&own, x, TONES, y, TONES, reg, CLEVISROOT_DONE, 0, CLEVISROOT_CLIP_STRAIGHT);
    hold_clip(&own, turned_x, TONES, turned_y, TONES, reg, CLEVISROOT_DONE, 0,
              CLEVISROOT_CLIP_TURNED);
}

static void written_and_turned(void)
{
    for (unsigned k = 0; k < 500; k++) {
        load_random();
        clevisroot_answer checked = clevisroot_check(TABLES(&own));
        CHECK(checked.number == CLEVISROOT_DONE);
        for (uint8_t start = 0; start < 8; start++)
            two_readings(checked.size, 1 + next_random(&random_state) % CLEVISROOT_RESET, start);
    }
}

int main(void)
{
    four_answers();
    every_coordinate();
    behind_silent();
    second_monitored();
    written_and_turned();
    return verdict("clip_check");
}
