/*
 * Symbols there and back, asked for the clip, and counted, with every lent buffer against a page that
 * nobody may touch: first with the page before its start, then behind its end. A load or store outside a
 * buffer ends the program, also in the archive, which the sanitizers do not see into.
 */
#define _DEFAULT_SOURCE
#include "test.h"
#include <stdlib.h>
#include <sys/mman.h>
#include <unistd.h>

/* A buffer's own pages, between two that are closed. */
typedef struct {
    uint8_t *start;
    size_t bytes;
} pages;

static pages new_pages(size_t bytes)
{
    size_t page = (size_t)sysconf(_SC_PAGESIZE);
    size_t inside = (bytes + page - 1) / page * page;
    uint8_t *all = (uint8_t *)mmap(NULL, inside + 2 * page, PROT_NONE,
                                   MAP_PRIVATE | MAP_ANONYMOUS, -1, 0);
    if (all == MAP_FAILED || mprotect(all + page, inside, PROT_READ | PROT_WRITE) != 0) {
        perror("guarded");
        exit(1);
    }
    pages made = {all + page, inside};
    return made;
}

static int behind; /* whether the closed page is the one behind the end */

static void *lend(pages of, size_t bytes)
{
    return behind ? of.start + of.bytes - bytes : of.start;
}

static pages p_bits, p_gains, p_tones, p_frame, p_back, p_x, p_y, p_tones_out, p_bits_out;
static pages p_work;

static void make_pages(void)
{
    size_t most = CLEVISROOT_MAX_TONES;
    p_bits = new_pages(most);
    p_gains = new_pages(2 * most);
    p_tones = new_pages(2 * most);
    p_frame = new_pages(CLEVISROOT_MAX_FRAME);
    p_back = new_pages(CLEVISROOT_MAX_FRAME);
    p_x = new_pages(2 * most);
    p_y = new_pages(2 * most);
    p_tones_out = new_pages(2 * most);
    p_bits_out = new_pages(most);
    p_work = new_pages(CLEVISROOT_MAX_WORK);
}

/* All carriers in t, backwards, with bits 0 to 15 below a bound; an even count of 1-bit tones. */
static table_set random_set(uint32_t *random, uint8_t coded, size_t n)
{
    uint8_t *bits = (uint8_t *)lend(p_bits, n);
    uint16_t *gains = (uint16_t *)lend(p_gains, 2 * n);
    uint16_t *tones = (uint16_t *)lend(p_tones, 2 * n);
    uint32_t bound = 2 + next_random(random) % 15;
    size_t ones = 0, last_one = 0;
    for (size_t k = 0; k < n; k++) {
        bits[k] = (uint8_t)(next_random(random) % bound);
        gains[k] = bits[k] || next_random(random) % 2 ? 512 : 0;
        tones[k] = (uint16_t)(n - 1 - k);
        if (bits[k] == 1) {
            ones++;
            last_one = k;
        }
    }
    if (ones % 2 == 1)
        bits[last_one] = 2;
    table_set set = {coded, bits, n, gains, n, tones, n};
    return set;
}

/* A frame of L bits there and back, without a start. */
static void frame_of(uint32_t *random, const table_set *set, uint32_t size)
{
    size_t n = set->tones_len, bytes = clevisroot_frame_bytes(size);
    uint8_t *frame = (uint8_t *)lend(p_frame, bytes), *back = (uint8_t *)lend(p_back, bytes);
    int16_t *x = (int16_t *)lend(p_x, 2 * n), *y = (int16_t *)lend(p_y, 2 * n);
    uint32_t reg = 1 + next_random(random) % CLEVISROOT_RESET;
    random_frame(random, frame, size, 0);
    memset(back, 0xff, bytes);
    clevisroot_answer written = clevisroot_encode(TABLES(set), frame, bytes, reg, x, n, y, n);
    clevisroot_answer read = clevisroot_read(TABLES(set), x, n, y, n, reg, back, bytes);
    CHECK(written.number == CLEVISROOT_DONE && read.number == CLEVISROOT_DONE);
    CHECK(written.reg == read.reg && memcmp(frame, back, bytes) == 0);
}

/* And from a start. */
static void frame_at(uint32_t *random, const table_set *set, uint32_t size, uint8_t start)
{
    size_t n = set->tones_len, bytes = clevisroot_frame_bytes_at(size, start);
    uint8_t *frame = (uint8_t *)lend(p_frame, bytes), *back = (uint8_t *)lend(p_back, bytes);
    int16_t *x = (int16_t *)lend(p_x, 2 * n), *y = (int16_t *)lend(p_y, 2 * n);
    uint32_t reg = 1 + next_random(random) % CLEVISROOT_RESET;
    random_frame(random, frame, size, start);
    memset(back, 0xff, bytes);
    clevisroot_answer written =
        clevisroot_encode_at(TABLES(set), frame, bytes, start, reg, x, n, y, n);
    clevisroot_answer read =
        clevisroot_read_at(TABLES(set), x, n, y, n, reg, back, bytes, start);
    CHECK(written.number == CLEVISROOT_DONE && read.number == CLEVISROOT_DONE);
    CHECK(written.reg == read.reg && memcmp(frame, back, bytes) == 0);
}

/* Moves each of n coordinates by at most 2. */
static void add_noise(uint32_t *random, int16_t *list, size_t n)
{
    for (size_t k = 0; k < n; k++)
        list[k] = (int16_t)(list[k] + (int)(next_random(random) % 5) - 2);
}

/* With noise, to the nearest frame: what was written is not nearer. */
static void nearest_at(uint32_t *random, const table_set *set, uint32_t size, uint8_t start)
{
    static int16_t sent_x[CLEVISROOT_MAX_TONES], sent_y[CLEVISROOT_MAX_TONES];
    size_t n = set->tones_len, bytes = clevisroot_frame_bytes_at(size, start);
    size_t work_len = clevisroot_work_bytes(set->coded, set->bits, set->bits_len);
    uint8_t *frame = (uint8_t *)lend(p_frame, bytes), *back = (uint8_t *)lend(p_back, bytes);
    uint8_t *work = (uint8_t *)lend(p_work, work_len);
    int16_t *x = (int16_t *)lend(p_x, 2 * n), *y = (int16_t *)lend(p_y, 2 * n);
    uint32_t reg = 1 + next_random(random) % CLEVISROOT_RESET;
    random_frame(random, frame, size, start);
    clevisroot_answer written =
        clevisroot_encode_at(TABLES(set), frame, bytes, start, reg, sent_x, n, sent_y, n);
    memcpy(x, sent_x, 2 * n);
    memcpy(y, sent_y, 2 * n);
    add_noise(random, x, n);
    add_noise(random, y, n);
    clevisroot_nearest near = clevisroot_read_nearest(TABLES(set), x, n, y, n, reg, back, bytes,
                                                      start, work, work_len);
    CHECK(written.number == CLEVISROOT_DONE && near.number == CLEVISROOT_DONE);
    CHECK(near.reg == written.reg && near.size == size);
    uint64_t total = 0;
    for (size_t p = 0; p < n; p++)
        total += squared_distance(x[p], y[p], sent_x[p], sent_y[p]);
    CHECK(near.total <= total);
}

/* A symbol asked for the clip, as it is and turned. */
static void clip_of(uint32_t *random, const table_set *set, uint32_t size)
{
    size_t n = set->tones_len, bytes = clevisroot_frame_bytes(size), monitored = 0;
    uint8_t *frame = (uint8_t *)lend(p_frame, bytes);
    int16_t *x = (int16_t *)lend(p_x, 2 * n), *y = (int16_t *)lend(p_y, 2 * n);
    uint32_t reg = 1 + next_random(random) % CLEVISROOT_RESET;
    random_frame(random, frame, size, 0);
    clevisroot_encode(TABLES(set), frame, bytes, reg, x, n, y, n);
    for (size_t k = 0; k < n; k++)
        monitored += set->bits[k] == 0 && set->gains[k] > 0;
    hold_clip(set, x, n, y, n, reg, CLEVISROOT_DONE, 0,
              monitored ? CLEVISROOT_CLIP_STRAIGHT : CLEVISROOT_CLIP_CANT_TELL);
    turn(x, n);
    turn(y, n);
    hold_clip(set, x, n, y, n, reg, CLEVISROOT_DONE, 0,
              monitored ? CLEVISROOT_CLIP_TURNED : CLEVISROOT_CLIP_CANT_TELL);
}

/* One symbol there and back; false if the tables are refused, as too few. */
static int symbol(uint32_t *random, uint8_t coded, size_t n)
{
    table_set set = random_set(random, coded, n);
    clevisroot_answer checked = clevisroot_check(TABLES(&set));
    CHECK(checked.number == CLEVISROOT_DONE || checked.number == CLEVISROOT_FEW);
    if (checked.number != CLEVISROOT_DONE)
        return 0;
    frame_of(random, &set, checked.size);
    frame_at(random, &set, checked.size, (uint8_t)(next_random(random) % 8));
    nearest_at(random, &set, checked.size, (uint8_t)(next_random(random) % 8));
    if (coded)
        clip_of(random, &set, checked.size);
    clevisroot_answer ordered =
        clevisroot_reorder(TABLES(&set), (uint16_t *)lend(p_tones_out, 2 * n), n,
                           (uint8_t *)lend(p_bits_out, n), n);
    CHECK(ordered.number == CLEVISROOT_DONE && ordered.size == checked.size);
    return 1;
}

/* Some symbols of n tones, coded and uncoded in turn; how many were not refused. */
static size_t symbols_of(uint32_t *random, size_t n, int rounds)
{
    size_t seen = 0;
    for (int round = 0; round < rounds; round++)
        seen += (size_t)symbol(random, round % 2, n);
    return seen;
}

static size_t symbols_within(uint32_t *random, size_t first, size_t last, int rounds)
{
    size_t seen = 0;
    for (size_t n = first; n <= last; n++)
        seen += symbols_of(random, n, rounds);
    return seen;
}

/* The longest frame from every start: 4096 tones of 15 bits, uncoded. */
static void largest(uint32_t *random)
{
    size_t n = CLEVISROOT_MAX_TONES;
    table_set set = random_set(random, 0, n);
    uint8_t *bits = (uint8_t *)lend(p_bits, n);
    uint16_t *gains = (uint16_t *)lend(p_gains, 2 * n);
    for (size_t k = 0; k < n; k++) {
        bits[k] = 15;
        gains[k] = 512;
    }
    for (uint8_t start = 0; start < 8; start++)
        frame_at(random, &set, 15 * CLEVISROOT_MAX_TONES, start);
}

/* Two frames that differ in every bit, counted; and one that was refused. */
static void counted(size_t bytes)
{
    uint8_t *sent = (uint8_t *)lend(p_frame, bytes), *read = (uint8_t *)lend(p_back, bytes);
    memset(sent, 0x96, bytes);
    memset(read, 0x69, bytes);
    clevisroot_tallied t =
        clevisroot_tally_read(clevisroot_tally_new(), sent, bytes, read, bytes);
    CHECK(t.number == CLEVISROOT_DONE && t.tally.wrong_bits == 8 * bytes);
    t = clevisroot_tally_refused(t.tally, sent, bytes, CLEVISROOT_MONITOR);
    CHECK(t.number == CLEVISROOT_DONE && t.tally.first_refused == 1);
}

static void counted_within(size_t first, size_t last)
{
    for (size_t bytes = first; bytes <= last; bytes++)
        counted(bytes);
}

int main(void)
{
    uint32_t random = 2463534242u;
    make_pages();
    for (behind = 0; behind < 2; behind++) {
        largest(&random);
        counted_within(0, 800);
        counted_within(CLEVISROOT_MAX_FRAME - 300, CLEVISROOT_MAX_FRAME);
        CHECK(symbols_within(&random, 1, 64, 40) > 2000);
        CHECK(symbols_within(&random, CLEVISROOT_MAX_TONES - 8, CLEVISROOT_MAX_TONES, 4) == 36);
    }
    return verdict("guarded");
}
