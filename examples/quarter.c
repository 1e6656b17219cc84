/*
 * Which way are the points turned? A hybrid may turn all points of a symbol by one, two or three quarters,
 * (X, Y) to (-Y, X) each. Reading turns them back each way and sees which is accepted.
 *
 * With coded tables a symbol that is turned by a quarter is never read, whatever the register (proved:
 * quarter-any-register in crates/guarantees/proofs/Guarantees.antt). So with the writer's register reading
 * always tells a quarter from none. It tells one way alone if a tone is monitored or N, the count of
 * non-zero entries in b', is odd. Else two ways are read, half a turn apart, as two frames.
 *
 *   gcc -Wall -Wextra -Werror -std=c11 -Iinclude examples/quarter.c \
 *       target/staticlib/libclevisroot.a -o quarter
 */
#include "clevisroot.h"
#include <stdio.h>

#define G 8
#define NSC 6
#define TABLES(gains) 1, bits, G, gains, G, tones, NSC /* 1: trellis coded; L is 5 and N is 4 */

static const uint8_t bits[G] = {0, 0, 3, 1, 0, 2, 1, 4};
static const uint16_t monitored[G] = {0, 0, 512, 512, 512, 512, 512, 512}; /* tone 4 is */
static const uint16_t silent[G] = {0, 0, 512, 512, 0, 512, 512, 512};      /* none is monitored */
static const uint16_t tones[NSC] = {7, 3, 5, 2, 6, 4};

/* By the quarters to the left that the points came turned by. */
static const char *const ways[4] = {"not turned", "turned by a quarter to the left",
                                    "turned by half a turn", "turned by a quarter to the right"};

/* -32768 has no opposite in 16 bits and stays. No tone can have it, so it is refused either way. */
static int16_t opposite(int16_t coordinate)
{
    return coordinate == INT16_MIN ? coordinate : (int16_t)-coordinate;
}

/* Three quarters to the left are one to the right. */
static void turn_left(int16_t *x, int16_t *y, int quarters)
{
    for (; quarters > 0; quarters--)
        for (int p = 0; p < NSC; p++) {
            int16_t old_x = x[p];
            x[p] = opposite(y[p]);
            y[p] = old_x;
        }
}

/* Each way is read from the same register. In the end the points are as they came. */
static void read_four_ways(const uint16_t *gains, int16_t *x, int16_t *y, uint32_t reg)
{
    int read = 0;
    for (int way = 0; way < 4; way++) {
        uint8_t frame[1];
        clevisroot_answer a =
            clevisroot_read(TABLES(gains), x, NSC, y, NSC, reg, frame, sizeof frame);
        if (a.number == CLEVISROOT_DONE)
            printf("%s %s, read frame %u", read++ ? "; or" : "", ways[way], (unsigned)frame[0]);
        turn_left(x, y, 3);
    }
    puts(read == 0 ? " refused all four ways" : read == 1 ? "" : ": can't tell which");
}

enum { SYMBOLS = 5, NOISY = 4 };

/* A symbol for each way, turned by none to three quarters, and one with noise. */
static int send_and_tell(const uint16_t *gains)
{
    int16_t x[NSC], y[NSC];
    uint32_t reg = CLEVISROOT_RESET;
    for (uint8_t k = 0; k < SYMBOLS; k++) {
        const uint8_t frame[1] = {(uint8_t)(21 + k)};
        clevisroot_answer a =
            clevisroot_encode(TABLES(gains), frame, sizeof frame, reg, x, NSC, y, NSC);
        if (a.number != CLEVISROOT_DONE)
            return 0;
        if (k == NOISY)
            x[0]++;
        else
            turn_left(x, y, k);
        printf("symbol %u:", (unsigned)k);
        read_four_ways(gains, x, y, reg);
        reg = a.reg;
    }
    return 1;
}

int main(void)
{
    puts("a tone is monitored");
    if (!send_and_tell(monitored))
        return 1;
    puts("no tone is monitored, and N is even");
    return !send_and_tell(silent);
}
