/*
 * The pair's report: figures by hand, frames of every length, tallies from outside, and 65535 symbols
 * one after the other, whose figures are those that are worked out from the list of them.
 */
#include "test.h"

#define MOST CLEVISROOT_MAX_SYMBOLS

static uint8_t sent[CLEVISROOT_MAX_FRAME], received[CLEVISROOT_MAX_FRAME];

/* The call is done, and the tally has these figures. */
static void hold_figures(clevisroot_tallied t, clevisroot_tally figures)
{
    CHECK(t.number == CLEVISROOT_DONE);
    CHECK(same_figures(t.tally, figures));
}

static void by_hand(void)
{
    static const uint8_t frame[2] = {21, 255}, wrong[2] = {20, 0};
    clevisroot_tally none = {0, 0, 0, 0, CLEVISROOT_NONE_REFUSED};
    clevisroot_tally one = {1, 0, 0, 0, CLEVISROOT_NONE_REFUSED};
    clevisroot_tally two = {2, 0, 1, 9, CLEVISROOT_NONE_REFUSED};
    clevisroot_tally three = {3, 1, 1, 9, 2}, four = {4, 2, 1, 9, 2}, five = {5, 2, 2, 10, 2};
    CHECK(same_figures(clevisroot_tally_new(), none));
    hold_figures(clevisroot_tally_read(none, frame, 2, frame, 2), one);
    hold_figures(clevisroot_tally_read(one, frame, 2, wrong, 2), two);
    hold_figures(clevisroot_tally_refused(two, frame, 2, CLEVISROOT_MONITOR), three);
    hold_figures(clevisroot_tally_refused(three, frame, 2, UINT32_MAX), four);
    hold_figures(clevisroot_tally_read(four, wrong, 1, frame, 1), five);
}

/* Every bit is wrong, and then none. */
static void every_length(void)
{
    memset(sent, 0x96, sizeof sent);
    memset(received, 0x69, sizeof received);
    for (uint32_t bytes = 0; bytes <= CLEVISROOT_MAX_FRAME; bytes += bytes < 600 ? 1 : 97) {
        clevisroot_tally wrong = {1, 0, bytes > 0, 8 * bytes, CLEVISROOT_NONE_REFUSED};
        clevisroot_tally right = {2, 0, bytes > 0, 8 * bytes, CLEVISROOT_NONE_REFUSED};
        hold_figures(clevisroot_tally_read(clevisroot_tally_new(), sent, bytes, received, bytes),
                     wrong);
        hold_figures(clevisroot_tally_read(wrong, sent, bytes, sent, bytes), right);
    }
}

/* Every bit of 65535 longest frames is wrong: the last of them, and that the tally is then full. */
static void largest_figures(void)
{
    uint32_t frame_bits = 8 * CLEVISROOT_MAX_FRAME;
    uint32_t before = MOST - 1;
    clevisroot_tally last = {before, 0, before, before * frame_bits, CLEVISROOT_NONE_REFUSED};
    clevisroot_tally full = {MOST, 0, MOST, UINT32_C(4026994680), CLEVISROOT_NONE_REFUSED};
    memset(sent, 0, sizeof sent);
    memset(received, 0xff, sizeof received);
    hold_figures(clevisroot_tally_read(last, sent, sizeof sent, received, sizeof received), full);
    clevisroot_tallied refused = clevisroot_tally_refused(full, sent, 1, 1);
    CHECK(refused.number == CLEVISROOT_FULL && same_figures(refused.tally, full));
}

/* A figure that would not fit stays at the largest; first_refused is set where it is 65535 only. */
static void from_outside(void)
{
    static const uint8_t zero = 0, ones = 0xff;
    uint32_t top = UINT32_MAX;
    clevisroot_tally fits = {7, 1, top - 1, top - 8, 0}, all = {8, 1, top, top, 0};
    clevisroot_tally over = {7, 1, top, top - 7, 0};
    hold_figures(clevisroot_tally_read(fits, &zero, 1, &ones, 1), all);
    hold_figures(clevisroot_tally_read(over, &zero, 1, &ones, 1), all);
    clevisroot_tally set = {7, top, 2, 3, CLEVISROOT_NONE_REFUSED}, now = {8, top, 2, 3, 7};
    hold_figures(clevisroot_tally_refused(set, &zero, 1, 1), now);
    clevisroot_tally other = {7, 0, 2, 3, top}, still = {8, 1, 2, 3, top};
    hold_figures(clevisroot_tally_refused(other, &zero, 1, 1), still);
}

/* What became of a symbol. */
enum { AS_SENT, ONE_BIT, EVERY_BIT, ANY_BITS, REFUSED, OUTCOMES };

/* Its frames follow from the seed. */
typedef struct {
    uint32_t seed;
    uint16_t bytes;
    uint8_t outcome;
} symbol;

static symbol list[MOST];

/* One in 1000 may have the longest frame, the others at most 32 bytes. */
static symbol random_symbol(uint32_t *random)
{
    uint32_t lengths = next_random(random) % 1000 == 0 ? CLEVISROOT_MAX_FRAME + 1 : 33;
    symbol s;
    s.bytes = (uint16_t)(next_random(random) % lengths);
    s.outcome = (uint8_t)(next_random(random) % OUTCOMES);
    s.seed = next_random(random);
    return s;
}

/* Writes what was sent, and what was read if it was. */
static void write_frames(symbol s)
{
    uint32_t random = s.seed;
    for (size_t k = 0; k < s.bytes; k++) {
        sent[k] = (uint8_t)next_random(&random);
        received[k] = s.outcome == ANY_BITS ? (uint8_t)next_random(&random) : sent[k];
        if (s.outcome == EVERY_BIT)
            received[k] = (uint8_t)~sent[k];
    }
    size_t at = s.bytes ? s.seed % s.bytes : 0;
    if (s.outcome == ONE_BIT)
        received[at] ^= (uint8_t)(1u << s.seed / 8 % 8);
}

/* The bits of the two frames that differ, one by one. */
static uint32_t wrong_bits(symbol s)
{
    uint32_t wrong = 0;
    write_frames(s);
    for (size_t k = 0; k < 8u * s.bytes; k++)
        wrong += (unsigned)(sent[k / 8] ^ received[k / 8]) >> k % 8 & 1;
    return wrong;
}

/* The figures of the first so many symbols of the list, from the last to the first. */
static clevisroot_tally worked_out(uint32_t symbols)
{
    clevisroot_tally figures = {symbols, 0, 0, 0, CLEVISROOT_NONE_REFUSED};
    for (uint32_t k = symbols; k-- > 0;) {
        if (list[k].outcome == REFUSED) {
            figures.refused++;
            figures.first_refused = k;
        } else {
            uint32_t wrong = wrong_bits(list[k]);
            figures.wrong_frames += wrong > 0;
            figures.wrong_bits += wrong;
        }
    }
    return figures;
}

static clevisroot_tallied count(clevisroot_tally tally, symbol s)
{
    write_frames(s);
    if (s.outcome == REFUSED)
        return clevisroot_tally_refused(tally, sent, s.bytes, s.seed);
    return clevisroot_tally_read(tally, sent, s.bytes, received, s.bytes);
}

/* 65535 symbols from a new tally, then FULL, and the figures stay. */
static void fill(uint32_t *random)
{
    clevisroot_tally tally = clevisroot_tally_new();
    for (uint32_t k = 0; k < MOST; k++) {
        list[k] = random_symbol(random);
        clevisroot_tallied counted = count(tally, list[k]);
        CHECK(counted.number == CLEVISROOT_DONE && counted.tally.symbols == k + 1);
        tally = counted.tally;
        if (k % 30000 < 2)
            CHECK(same_figures(tally, worked_out(k + 1)));
    }
    clevisroot_tally figures = worked_out(MOST);
    for (int k = 0; k < 100; k++) {
        clevisroot_tallied counted = count(tally, random_symbol(random));
        CHECK(counted.number == CLEVISROOT_FULL && same_figures(counted.tally, figures));
        tally = counted.tally;
    }
    CHECK(tally.refused > MOST / 6 && tally.wrong_frames > MOST / 2 && tally.first_refused < 100);
}

int main(void)
{
    uint32_t random = 2463534242u;
    by_hand();
    every_length();
    largest_figures();
    from_outside();
    fill(&random);
    fill(&random);
    return verdict("tally");
}
