/*
 * Asks whether the clip is the wrong way round before it reads: three symbols, the second with the clips
 * exchanged, the third with noise.
 *
 *   gcc -Wall -Wextra -Werror -std=c11 -Iinclude examples/clip.c \
 *       target/staticlib/libclevisroot.a -o clip
 */
#include "clevisroot_names.h"
#include <stdio.h>

#define G 8
#define NSC 6
#define LISTS bits, G, gains, G, tones, NSC
#define TABLES 1, LISTS /* 1: trellis coded; L is 5, so a frame is one byte */

static const uint8_t bits[G] = {0, 0, 3, 1, 0, 2, 1, 4};
static const uint16_t gains[G] = {0, 0, 512, 512, 512, 512, 512, 512}; /* tone 4 is monitored */
static const uint16_t tones[NSC] = {7, 3, 5, 2, 6, 4};

enum { SYMBOLS = 3, TURNED = 1, NOISY = 2 };

static void turn(int16_t *x, int16_t *y)
{
    for (int p = 0; p < NSC; p++) {
        x[p] = (int16_t)-x[p];
        y[p] = (int16_t)-y[p];
    }
}

static void read_and_tell(const int16_t *x, const int16_t *y, uint32_t reg)
{
    uint8_t frame[1] = {0};
    clevisroot_answer a = clevisroot_read(TABLES, x, NSC, y, NSC, reg, frame, 1);
    if (a.number == CLEVISROOT_DONE)
        printf("read frame %u\n", (unsigned)frame[0]);
    else
        printf("refused %u %s at place %u\n", (unsigned)a.number,
               clevisroot_refusal_name(a.number), (unsigned)a.place);
}

/*
 * A turned symbol is read with its signs changed back, and one of which nothing can be told as it came; what
 * is neither would be refused both ways.
 */
static int ask_and_read(uint8_t symbol, int16_t *x, int16_t *y, uint32_t reg)
{
    clevisroot_clip c = clevisroot_clip_check(LISTS, x, NSC, y, NSC, reg);
    if (c.number != CLEVISROOT_DONE)
        return 0;
    printf("symbol %u: %s, ", (unsigned)symbol, clevisroot_clip_name(c.clip));
    if (c.clip == CLEVISROOT_CLIP_TURNED)
        turn(x, y);
    if (c.clip == CLEVISROOT_CLIP_NEITHER)
        printf("not read\n");
    else
        read_and_tell(x, y, c.reg); /* the register as it was given: the check draws nothing */
    return 1;
}

int main(void)
{
    int16_t x[NSC], y[NSC];
    uint32_t reg = CLEVISROOT_RESET;
    for (uint8_t k = 0; k < SYMBOLS; k++) {
        const uint8_t frame[1] = {(uint8_t)(21 + k)};
        clevisroot_answer a = clevisroot_encode(TABLES, frame, 1, reg, x, NSC, y, NSC);
        if (a.number != CLEVISROOT_DONE)
            return 1;
        if (k == TURNED)
            turn(x, y);
        if (k == NOISY)
            x[3]++; /* tone 4 is at place 3 in t' */
        if (!ask_and_read(k, x, y, reg))
            return 1;
        reg = a.reg;
    }
    return 0;
}
