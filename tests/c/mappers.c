/*
 * One tone by the tuned mapper and by the plain one: the bench figures, every label there and back, and
 * the same answer of both for any numbers.
 */
#include "test.h"

static void bench_figures(const mapper *m)
{
    static const struct {
        uint8_t bits;
        uint32_t label;
        int16_t x, y;
    } figures[] = {
        {4, 9, -3, 3}, {5, 16, 5, 1}, {5, 24, -3, 5}, {5, 31, -5, -1},
        {7, 64, 9, 1}, {7, 67, 11, 3}, {15, 17407, 191, 63},
    };
    for (size_t k = 0; k < sizeof figures / sizeof *figures; k++) {
        clevisroot_point p = m->map_label(figures[k].bits, figures[k].label);
        CHECK(p.number == CLEVISROOT_DONE && p.x == figures[k].x && p.y == figures[k].y);
        clevisroot_label back = m->read_point(figures[k].bits, p.x, p.y);
        CHECK(back.number == CLEVISROOT_DONE && back.label == figures[k].label);
    }
}

static void map_alike(uint8_t bits, uint32_t label)
{
    clevisroot_point tuned = clevisroot_map_label(bits, label);
    clevisroot_point plain = clevisroot_plain_map_label(bits, label);
    CHECK(plain.number == tuned.number && plain.x == tuned.x && plain.y == tuned.y);
}

static void read_alike(uint8_t bits, int16_t x, int16_t y)
{
    clevisroot_label tuned = clevisroot_read_point(bits, x, y);
    clevisroot_label plain = clevisroot_plain_read_point(bits, x, y);
    CHECK(plain.number == tuned.number && plain.label == tuned.label);
}

/* Every label, there by one mapper and back by the other. */
static void every_label(uint8_t bits)
{
    for (uint32_t label = 0; label < 1u << bits; label++) {
        map_alike(bits, label);
        for (int k = 0; k < 2; k++) {
            clevisroot_point p = mappers[k].map_label(bits, label);
            clevisroot_label back = mappers[1 - k].read_point(bits, p.x, p.y);
            CHECK(p.number == CLEVISROOT_DONE);
            CHECK(back.number == CLEVISROOT_DONE && back.label == label);
        }
    }
}

static void every_point_near(uint8_t bits)
{
    for (int16_t x = -20; x <= 20; x++)
        for (int16_t y = -20; y <= 20; y++)
            read_alike(bits, x, y);
}

/* Labels of every size, and coordinates at the ends of 16 bits and beside 0. */
static void ends(uint8_t bits)
{
    static const int16_t far[] = {INT16_MIN, INT16_MIN + 1, -1, 1, INT16_MAX - 1, INT16_MAX};
    for (int k = 0; k < 32; k++) {
        map_alike(bits, 1u << k);
        map_alike(bits, UINT32_MAX >> k);
    }
    for (size_t k = 0; k < 6 * 6; k++)
        read_alike(bits, far[k / 6], far[k % 6]);
}

/* Any numbers, and smaller ones that a label or a point more often has. */
static void any_numbers(void)
{
    uint32_t random = 2463534242u;
    for (int k = 0; k < 20000; k++) {
        uint8_t bits = (uint8_t)next_random(&random), few = bits % 16;
        uint32_t label = next_random(&random), point = next_random(&random);
        int16_t x = (int16_t)(point >> 16), y = (int16_t)point;
        map_alike(bits, label);
        map_alike(few, label >> (31 - few));
        read_alike(bits, x, y);
        read_alike(few, x % 256, y % 256);
    }
}

int main(void)
{
    bench_figures(&mappers[0]);
    bench_figures(&mappers[1]);
    for (uint8_t bits = 1; bits <= 15; bits++) {
        every_label(bits);
        every_point_near(bits);
    }
    for (unsigned bits = 0; bits < 256; bits++)
        ends((uint8_t)bits);
    any_numbers();
    return verdict("mappers");
}
