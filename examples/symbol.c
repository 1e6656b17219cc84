/*
 * One symbol there and back, then with noise, then with the clips the wrong way round.
 *
 *   gcc -Wall -Wextra -Werror -std=c11 -Iinclude examples/symbol.c \
 *       target/staticlib/libclevisroot.a -o symbol
 */
#include "clevisroot_names.h"
#include <stdio.h>

#define G 8
#define NSC 6
#define TABLES 1, bits, G, gains, G, tones, NSC /* 1: trellis coded */

static const uint8_t bits[G] = {0, 0, 3, 1, 0, 2, 1, 4};
static const uint16_t gains[G] = {0, 0, 512, 512, 512, 512, 512, 512};
static const uint16_t tones[NSC] = {7, 3, 5, 2, 6, 4};

static void read_and_tell(const char *clips, const int16_t *x, const int16_t *y, size_t bytes)
{
    uint8_t frame[1] = {0};
    clevisroot_answer a =
        clevisroot_read(TABLES, x, NSC, y, NSC, CLEVISROOT_RESET, frame, bytes);
    if (a.number == CLEVISROOT_DONE)
        printf("%s: read frame %u\n", clips, (unsigned)frame[0]);
    else
        printf("%s: refused %u %s at place %u\n", clips, (unsigned)a.number,
               clevisroot_refusal_name(a.number), (unsigned)a.place);
}

/* Points with noise are no grid points: the nearest frame, and the total of squared distances. */
static void read_noisy(const int16_t *x, const int16_t *y, size_t bytes)
{
    static uint8_t work[CLEVISROOT_MAX_WORK];
    uint8_t frame[1] = {0};
    int16_t noisy_x[NSC], noisy_y[NSC];
    for (int p = 0; p < NSC; p++) {
        noisy_x[p] = (int16_t)(x[p] + p % 2);
        noisy_y[p] = (int16_t)(y[p] - p % 3);
    }
    clevisroot_nearest a =
        clevisroot_read_nearest(TABLES, noisy_x, NSC, noisy_y, NSC, CLEVISROOT_RESET, frame, bytes,
                                0, work, clevisroot_work_bytes(1, bits, G));
    if (a.number == CLEVISROOT_DONE)
        printf("noisy: nearest is frame %u, total %llu\n", (unsigned)frame[0],
               (unsigned long long)a.total);
    else
        printf("noisy: refused %u %s at place %u\n", (unsigned)a.number,
               clevisroot_refusal_name(a.number), (unsigned)a.place);
}

int main(void)
{
    clevisroot_answer a = clevisroot_check(TABLES);
    if (a.number != CLEVISROOT_DONE) {
        printf("tables refused %u %s at place %u\n", (unsigned)a.number,
               clevisroot_refusal_name(a.number), (unsigned)a.place);
        return 1;
    }
    size_t bytes = clevisroot_frame_bytes(a.size); /* L is 5, so one byte */
    printf("L is %u\n", (unsigned)a.size);

    const uint8_t frame[1] = {21};
    int16_t x[NSC], y[NSC];
    a = clevisroot_encode(TABLES, frame, bytes, CLEVISROOT_RESET, x, NSC, y, NSC);
    if (a.number != CLEVISROOT_DONE)
        return 1;
    printf("frame %u:", (unsigned)frame[0]);
    for (int p = 0; p < NSC; p++)
        printf(" (%d,%d)", x[p], y[p]);
    printf("\nregister for the next symbol: %u\n", (unsigned)a.reg);

    read_and_tell("straight", x, y, bytes);
    read_noisy(x, y, bytes);
    for (int p = 0; p < NSC; p++) {
        x[p] = (int16_t)-x[p];
        y[p] = (int16_t)-y[p];
    }
    read_and_tell("turned", x, y, bytes);
    return 0;
}
