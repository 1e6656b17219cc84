/*
 * What the tests in C share: a check that tells its line, bench table A, a small random source, and
 * answers held to what they must be.
 */
#ifndef CLEVISROOT_TEST_H
#define CLEVISROOT_TEST_H

#include "clevisroot_names.h"
#include <stdio.h>
#include <string.h>

static int failures;

#define CHECK(condition) ((condition) ? (void)0 : tell(__FILE__, __LINE__, #condition))

static inline void tell(const char *file, int line, const char *condition)
{
    printf("%s:%d: not so: %s\n", file, line, condition);
    failures++;
}

/* The last line of a test, and its exit status. */
static inline int verdict(const char *test)
{
    printf("%s: %s\n", test, failures ? "FAILED" : "passed");
    return failures != 0;
}

/* Mode and tables as a caller lends them. */
typedef struct {
    uint8_t coded;
    const uint8_t *bits;
    size_t bits_len;
    const uint16_t *gains;
    size_t gains_len;
    const uint16_t *tones;
    size_t tones_len;
} table_set;

/* The six arguments that the clip check begins with, whose tables are coded. */
#define LISTS(set) \
    (set)->bits, (set)->bits_len, (set)->gains, (set)->gains_len, (set)->tones, (set)->tones_len

/* The seven arguments that every other call with tables begins with. */
#define TABLES(set) (set)->coded, LISTS(set)

#define A_CARRIERS 8
#define A_TONES 6

static const uint8_t a_bits[A_CARRIERS] = {0, 0, 3, 1, 0, 2, 1, 4};
static const uint16_t a_gains[A_CARRIERS] = {0, 0, 512, 512, 512, 512, 512, 512};
static const uint16_t a_tones[A_TONES] = {7, 3, 5, 2, 6, 4};

static inline table_set table_a(void)
{
    table_set a = {1, a_bits, A_CARRIERS, a_gains, A_CARRIERS, a_tones, A_TONES};
    return a;
}

/* Xorshift; the state is never 0. */
static inline uint32_t next_random(uint32_t *state)
{
    *state ^= *state << 13;
    *state ^= *state >> 17;
    *state ^= *state << 5;
    return *state;
}

/* A frame of L bits from this start, 0 to 7; the bits around it are 0. */
static inline void random_frame(uint32_t *state, uint8_t *frame, uint32_t size, uint8_t start)
{
    size_t bytes = clevisroot_frame_bytes_at(size, start), end = start + size;
    for (size_t k = 0; k < bytes; k++)
        frame[k] = (uint8_t)next_random(state);
    if (bytes > 0)
        frame[0] &= (uint8_t)(0xffu << start);
    if (end % 8 != 0)
        frame[bytes - 1] &= (uint8_t)((1u << (end % 8)) - 1);
}

/* The functions of the library that answer a number. */
enum {
    CHECKING,
    REORDERING,
    ENCODING,
    ENCODING_AT,
    READING,
    READING_AT,
    READING_NEAREST,
    CLIP_CHECKING,
    MAPPING,
    LABELLING,
    PLAIN_MAPPING,
    PLAIN_LABELLING,
    DRAWING,
    COUNTING_READ,
    COUNTING_REFUSED,
    FUNCTIONS
};

/* The two mappers, the tuned one first: their functions, and which these are. */
typedef struct {
    clevisroot_point (*map_label)(uint8_t bits, uint32_t label);
    clevisroot_label (*read_point)(uint8_t bits, int16_t x, int16_t y);
    int mapping, labelling;
} mapper;

static const mapper mappers[2] = {
    {clevisroot_map_label, clevisroot_read_point, MAPPING, LABELLING},
    {clevisroot_plain_map_label, clevisroot_plain_read_point, PLAIN_MAPPING, PLAIN_LABELLING},
};

/* A bit for each number that a function has given. */
static uint32_t given[FUNCTIONS];

/* The answer has this number and place, and of a refusal the register that was given and size 0. */
static inline void hold(int function, clevisroot_answer a, uint32_t number, uint32_t place,
                        uint32_t reg)
{
    given[function] |= 1u << a.number;
    if (a.number != number || a.place != place)
        printf("function %d: %u %s at %u\n", function, (unsigned)a.number,
               clevisroot_refusal_name(a.number), (unsigned)a.place);
    CHECK(a.number == number && a.place == place);
    if (number != CLEVISROOT_DONE)
        CHECK(a.size == 0 && a.reg == reg);
}

static inline int untouched(const void *buffer, size_t bytes)
{
    const uint8_t *byte = (const uint8_t *)buffer;
    for (size_t k = 0; k < bytes; k++)
        if (byte[k] != 0x5a)
            return 0;
    return 1;
}

/* Encoding from a start; it writes nothing where it refuses. */
static inline void hold_encode_at(const table_set *set, const uint8_t *frame, size_t frame_len,
                                  uint8_t start, uint32_t reg, size_t x_len, size_t y_len,
                                  uint32_t number, uint32_t place)
{
    int16_t x[A_TONES + 1], y[A_TONES + 1];
    memset(x, 0x5a, sizeof x);
    memset(y, 0x5a, sizeof y);
    hold(ENCODING_AT,
         clevisroot_encode_at(TABLES(set), frame, frame_len, start, reg, x, x_len, y, y_len),
         number, place, reg);
    if (number != CLEVISROOT_DONE)
        CHECK(untouched(x, sizeof x) && untouched(y, sizeof y));
}

/* The most bytes that a frame of bench table A is lent; from start 255 it would have 33. */
#define MOST_LENT 34

/* Reading to a frame from a start; it writes nothing where it refuses. */
static inline void hold_read_at(const table_set *set, const int16_t *x, size_t x_len,
                                const int16_t *y, size_t y_len, uint32_t reg, size_t frame_len,
                                uint8_t start, uint32_t number, uint32_t place)
{
    uint8_t frame[MOST_LENT];
    memset(frame, 0x5a, sizeof frame);
    hold(READING_AT,
         clevisroot_read_at(TABLES(set), x, x_len, y, y_len, reg, frame, frame_len, start), number,
         place, reg);
    if (number != CLEVISROOT_DONE)
        CHECK(untouched(frame, sizeof frame));
}

/* The bytes of bench table A's working buffer, coded, and the most that it is lent. */
#define A_WORK 32
#define MOST_WORK 64

/* Reading to the nearest frame; where it refuses it writes nothing, and tells total 0. */
static inline void hold_read_nearest(const table_set *set, const int16_t *x, size_t x_len,
                                     const int16_t *y, size_t y_len, uint32_t reg,
                                     size_t frame_len, uint8_t start, size_t work_len,
                                     uint32_t number, uint32_t place)
{
    uint8_t frame[MOST_LENT], work[MOST_WORK];
    memset(frame, 0x5a, sizeof frame);
    memset(work, 0x5a, sizeof work);
    clevisroot_nearest nearest =
        clevisroot_read_nearest(TABLES(set), x, x_len, y, y_len, reg, frame, frame_len, start,
                                work, work_len);
    clevisroot_answer a = {nearest.number, nearest.place, nearest.size, nearest.reg};
    hold(READING_NEAREST, a, number, place, reg);
    if (number != CLEVISROOT_DONE)
        CHECK(nearest.total == 0 && untouched(frame, sizeof frame) &&
              untouched(work, sizeof work));
}

/* The clip check: this clip, none where it refuses, and always the register that was given. */
static inline void hold_clip(const table_set *set, const int16_t *x, size_t x_len,
                             const int16_t *y, size_t y_len, uint32_t reg, uint32_t number,
                             uint32_t place, uint32_t clip)
{
    clevisroot_clip c = clevisroot_clip_check(LISTS(set), x, x_len, y, y_len, reg);
    clevisroot_answer a = {c.number, c.place, 0, c.reg};
    hold(CLIP_CHECKING, a, number, place, reg);
    CHECK(c.clip == clip && c.reg == reg);
}

/* Half a turn: all signs changed, of coordinates above -32768. */
static inline void turn(int16_t *list, size_t n)
{
    for (size_t k = 0; k < n; k++)
        list[k] = (int16_t)-list[k];
}

/* Five numbers have nothing between them. */
static inline int same_figures(clevisroot_tally one, clevisroot_tally other)
{
    return memcmp(&one, &other, sizeof one) == 0;
}

/* The squared distance of two points. */
static inline uint64_t squared_distance(int16_t x, int16_t y, int16_t to_x, int16_t to_y)
{
    int64_t dx = (int64_t)x - to_x, dy = (int64_t)y - to_y;
    return (uint64_t)(dx * dx + dy * dy);
}

#endif
