/*
 * A pair's report: eight symbols, of which one arrives with a point moved and one with the clips the
 * wrong way round.
 *
 *   gcc -Wall -Wextra -Werror -std=c11 -Iinclude examples/pair_report.c \
 *       target/staticlib/libclevisroot.a -o pair_report
 */
#include "clevisroot.h"
#include <stdio.h>

#define G 8
#define NSC 6
#define TABLES 1, bits, G, gains, G, tones, NSC /* 1: trellis coded; L is 5, so a frame is one byte */

static const uint8_t bits[G] = {0, 0, 3, 1, 0, 2, 1, 4};
static const uint16_t gains[G] = {0, 0, 512, 512, 512, 512, 512, 512};
static const uint16_t tones[NSC] = {7, 3, 5, 2, 6, 4};

enum { SYMBOLS = 8, MOVED = 2, TURNED = 5 };

/* The tone of 4 bits goes to another point that the code allows too: it is read as another frame. */
static void move_point(int16_t *x)
{
    x[0] = (int16_t)(x[0] > 0 ? x[0] - 4 : x[0] + 4);
}

static void turn(int16_t *x, int16_t *y)
{
    for (int p = 0; p < NSC; p++) {
        x[p] = (int16_t)-x[p];
        y[p] = (int16_t)-y[p];
    }
}

static clevisroot_tallied read_and_count(clevisroot_tally tally, const uint8_t *sent,
                                         const int16_t *x, const int16_t *y, uint32_t reg)
{
    uint8_t frame[1];
    clevisroot_answer a = clevisroot_read(TABLES, x, NSC, y, NSC, reg, frame, 1);
    if (a.number == CLEVISROOT_DONE)
        return clevisroot_tally_read(tally, sent, 1, frame, 1);
    return clevisroot_tally_refused(tally, sent, 1, a.number);
}

static void print_report(clevisroot_tally tally)
{
    printf("symbols: %u\n", (unsigned)tally.symbols);
    printf("refused: %u\n", (unsigned)tally.refused);
    printf("wrong frames: %u\n", (unsigned)tally.wrong_frames);
    printf("wrong bits: %u\n", (unsigned)tally.wrong_bits);
    if (tally.first_refused == CLEVISROOT_NONE_REFUSED)
        printf("first refused: none\n");
    else
        printf("first refused: symbol %u\n", (unsigned)tally.first_refused);
}

int main(void)
{
    int16_t x[NSC], y[NSC];
    uint32_t reg = CLEVISROOT_RESET;
    clevisroot_tally tally = clevisroot_tally_new();
    for (uint8_t k = 0; k < SYMBOLS; k++) {
        const uint8_t frame[1] = {(uint8_t)(21 + k)};
        clevisroot_answer a = clevisroot_encode(TABLES, frame, 1, reg, x, NSC, y, NSC);
        if (a.number != CLEVISROOT_DONE)
            return 1;
        if (k == MOVED)
            move_point(x);
        if (k == TURNED)
            turn(x, y);
        clevisroot_tallied t = read_and_count(tally, frame, x, y, reg);
        if (t.number != CLEVISROOT_DONE)
            return 1;
        reg = a.reg;
        tally = t.tally;
    }
    print_report(tally);
    return 0;
}
