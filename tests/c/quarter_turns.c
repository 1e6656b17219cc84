/*
 * Written symbols turned by a quarter, either way. Coded, each is refused with the number and place that the
 * tables alone give, and is read with no register; uncoded, a tone of 1 bit or a monitored one tells.
 */
#include "test.h"

#define MOST_TONES 10

static uint32_t random_state = 88172645u;

/* A table set in the order of t: s silent, m monitored, else the bits in base 16. */
typedef struct {
    const char *tones;
    uint32_t number, place;
    int n; /* the count of non-zero entries in b' */
} turned_case;

static const turned_case cases[] = {
    {"11222", CLEVISROOT_OFFGRID, 3, 4},
    {"m1s2413", CLEVISROOT_OFFGRID, 5, 4},
    {"1111111111", CLEVISROOT_OFFGRID, 0, 5},
    {"f2s3m211", CLEVISROOT_OFFGRID, 6, 5},
    {"2222m", CLEVISROOT_MONITOR, 4, 4},
    {"m22222", CLEVISROOT_MONITOR, 0, 5},
    {"2s3m4m5f7", CLEVISROOT_MONITOR, 3, 6},
    {"22222", CLEVISROOT_TRELLIS, 0, 5},
    {"sf2s34567", CLEVISROOT_TRELLIS, 0, 7},
    {"2222", CLEVISROOT_TRELLIS, 0, 4},
    {"5s3s2f", CLEVISROOT_TRELLIS, 0, 4},
    {"222222", CLEVISROOT_TRELLIS, 1, 6},
    {"9a3s45678", CLEVISROOT_TRELLIS, 1, 8},
    {"ffffffffff", CLEVISROOT_TRELLIS, 1, 10},
};

/* The case's tables; sub-carriers count down along t. */
static uint8_t bits[MOST_TONES];
static uint16_t gains[MOST_TONES], tones[MOST_TONES];

static table_set load(const turned_case *c, uint8_t coded)
{
    size_t n = strlen(c->tones);
    for (size_t p = 0; p < n; p++) {
        char tone = c->tones[p];
        size_t k = n - 1 - p;
        tones[p] = (uint16_t)k;
        gains[k] = tone == 's' ? 0 : 512;
        bits[k] = (uint8_t)(tone == 's' || tone == 'm' ? 0
                            : tone >= 'a'              ? tone - 'a' + 10
                                                       : tone - '0');
    }
    table_set set = {coded, bits, n, gains, n, tones, n};
    return set;
}

/* A symbol as it was written, or turned. */
typedef struct {
    int16_t x[MOST_TONES], y[MOST_TONES];
} symbol;

/* (-Y, X) for (X, Y); a written coordinate is above -32768. */
static symbol left(symbol s)
{
    symbol turned;
    memcpy(turned.y, s.x, sizeof s.x);
    memcpy(turned.x, s.y, sizeof s.y);
    turn(turned.x, MOST_TONES);
    return turned;
}

/* (-X, -Y) for (X, Y). */
static symbol half(symbol s)
{
    return left(left(s));
}

/* (Y, -X) for (X, Y). */
static symbol right(symbol s)
{
    return left(half(s));
}

static uint32_t random_register(void)
{
    return 1 + next_random(&random_state) % CLEVISROOT_RESET;
}

/* A random frame of L bits, which is handed out too. */
static symbol written(const table_set *set, uint32_t size, uint8_t start, uint32_t reg,
                      uint8_t *frame)
{
    symbol s = {{0}, {0}};
    size_t n = set->tones_len, bytes = clevisroot_frame_bytes_at(size, start);
    random_frame(&random_state, frame, size, start);
    clevisroot_answer a =
        clevisroot_encode_at(TABLES(set), frame, bytes, start, reg, s.x, n, s.y, n);
    CHECK(a.number == CLEVISROOT_DONE);
    return s;
}

/* Whatever the register, it is refused, and register and frame are as they were. */
static void never_read(const table_set *set, const symbol *s, size_t bytes, uint8_t start)
{
    for (unsigned k = 0; k < 8; k++) {
        uint8_t frame[MOST_LENT];
        uint32_t reg = random_register();
        memset(frame, 0x5a, sizeof frame);
        clevisroot_answer a = clevisroot_read_at(TABLES(set), s->x, set->tones_len, s->y,
                                                 set->tones_len, reg, frame, bytes, start);
        CHECK(a.number >= CLEVISROOT_OFFGRID && a.number <= CLEVISROOT_TRELLIS);
        CHECK(a.size == 0 && a.reg == reg && untouched(frame, sizeof frame));
    }
}

/* One that is turned by a quarter: the case's refusal, with no other register read, and no clip. */
static void hold_turned(const turned_case *c, const table_set *set, symbol s, uint32_t reg,
                        size_t bytes, uint8_t start)
{
    size_t n = set->tones_len;
    hold_read_at(set, s.x, n, s.y, n, reg, bytes, start, c->number, c->place);
    never_read(set, &s, bytes, start);
    hold_clip(set, s.x, n, s.y, n, reg, CLEVISROOT_DONE, 0,
              strchr(c->tones, 'm') ? CLEVISROOT_CLIP_NEITHER : CLEVISROOT_CLIP_CANT_TELL);
}

static void coded(const turned_case *c)
{
    table_set set = load(c, 1);
    uint32_t size = clevisroot_check(TABLES(&set)).size;
    for (unsigned k = 0; k < 8 * 32; k++) {
        uint8_t frame[MOST_LENT], start = (uint8_t)(k % 8);
        size_t bytes = clevisroot_frame_bytes_at(size, start);
        uint32_t reg = random_register();
        symbol s = written(&set, size, start, reg, frame);
        hold_read_at(&set, s.x, set.tones_len, s.y, set.tones_len, reg, bytes, start,
                     CLEVISROOT_DONE, 0);
        hold_turned(c, &set, left(s), reg, bytes, start);
        hold_turned(c, &set, right(s), reg, bytes, start);
        symbol opposite = half(s);
        if (c->n % 2 == 1)
            never_read(&set, &opposite, bytes, start);
    }
}

/* Uncoded t' is t. Without a 1-bit tone or a monitored one, another frame is read. */
static void hold_uncoded(const table_set *set, const char *classes, symbol s, uint32_t reg,
                         const uint8_t *sent, size_t bytes)
{
    uint8_t frame[MOST_LENT] = {0};
    const char *one = strchr(classes, '1'), *monitored = strchr(classes, 'm');
    const char *at = one ? one : monitored;
    clevisroot_answer a = clevisroot_read(TABLES(set), s.x, set->tones_len, s.y, set->tones_len,
                                          reg, frame, bytes);
    hold(READING, a,
         one         ? CLEVISROOT_OFFGRID
         : monitored ? CLEVISROOT_MONITOR
                     : CLEVISROOT_DONE,
         at ? (uint32_t)(at - classes) : 0, reg);
    CHECK(at || memcmp(frame, sent, bytes) != 0);
}

static void uncoded(const turned_case *c)
{
    table_set set = load(c, 0);
    uint32_t size = clevisroot_check(TABLES(&set)).size;
    for (unsigned k = 0; k < 32; k++) {
        uint8_t frame[MOST_LENT];
        size_t bytes = clevisroot_frame_bytes(size);
        uint32_t reg = random_register();
        symbol s = written(&set, size, 0, reg, frame);
        hold_uncoded(&set, c->tones, left(s), reg, frame, bytes);
        hold_uncoded(&set, c->tones, right(s), reg, frame, bytes);
    }
}

int main(void)
{
    for (size_t k = 0; k < sizeof cases / sizeof *cases; k++) {
        coded(&cases[k]);
        uncoded(&cases[k]);
    }
    return verdict("quarter_turns");
}
