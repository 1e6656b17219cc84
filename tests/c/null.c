/* A null pointer where its length is 0, at every pointer of every call, coded and uncoded. */
#include "test.h"

/* Which pointers of a call are null: a bit for each table, and for the first and second of two buffers. */
enum { BITS = 1, GAINS = 2, TONES = 4, TABLES_NULL = 7, FIRST = 8, SECOND = 16, WAYS = 32 };

/* With this start the frames of bench table A have as many bytes as with start 0: L is 5 or 11. */
#define START 3

static table_set tables_with(uint8_t coded, unsigned nulls)
{
    table_set set = table_a();
    set.coded = coded;
    if (nulls & BITS) {
        set.bits = NULL;
        set.bits_len = 0;
    }
    if (nulls & GAINS) {
        set.gains = NULL;
        set.gains_len = 0;
    }
    if (nulls & TONES) {
        set.tones = NULL;
        set.tones_len = 0;
    }
    return set;
}

/* SIZE where a table is null, else ROOM where a buffer is, else what the call gives without nulls. */
static uint32_t expected(unsigned nulls, uint32_t otherwise)
{
    if (nulls & TABLES_NULL)
        return CLEVISROOT_SIZE;
    return nulls ? CLEVISROOT_ROOM : otherwise;
}

static size_t room(unsigned null)
{
    return null ? 0 : A_TONES;
}

static void check_and_reorder(const table_set *set, unsigned nulls)
{
    uint16_t tones[A_TONES];
    uint8_t bits[A_TONES];
    unsigned first = nulls & FIRST, second = nulls & SECOND;
    CHECK(clevisroot_check(TABLES(set)).number == expected(nulls & TABLES_NULL, CLEVISROOT_DONE));
    clevisroot_answer a = clevisroot_reorder(TABLES(set), first ? NULL : tones, room(first),
                                             second ? NULL : bits, room(second));
    CHECK(a.number == expected(nulls, CLEVISROOT_DONE));
}

static void encode(const table_set *set, unsigned nulls)
{
    static const uint8_t frame[2];
    int16_t x[A_TONES], y[A_TONES];
    unsigned first = nulls & FIRST, second = nulls & SECOND;
    int16_t *lent_x = first ? NULL : x, *lent_y = second ? NULL : y;
    size_t bytes = set->coded ? 1 : 2;
    clevisroot_answer a = clevisroot_encode(TABLES(set), frame, bytes, 1, lent_x, room(first),
                                            lent_y, room(second));
    CHECK(a.number == expected(nulls, CLEVISROOT_DONE));
    a = clevisroot_encode(TABLES(set), NULL, 0, 1, lent_x, room(first), lent_y, room(second));
    CHECK(a.number == expected(nulls, CLEVISROOT_FRAME));
    a = clevisroot_encode_at(TABLES(set), frame, bytes, START, 1, lent_x, room(first), lent_y,
                             room(second));
    CHECK(a.number == expected(nulls, CLEVISROOT_DONE));
    a = clevisroot_encode_at(TABLES(set), NULL, 0, START, 1, lent_x, room(first), lent_y,
                             room(second));
    CHECK(a.number == expected(nulls, CLEVISROOT_FRAME));
}

static void read_points(const table_set *set, unsigned nulls)
{
    static const int16_t zeros[A_TONES];
    uint8_t frame[2];
    unsigned first = nulls & FIRST, second = nulls & SECOND;
    const int16_t *x = first ? NULL : zeros, *y = second ? NULL : zeros;
    size_t bytes = set->coded ? 1 : 2;
    clevisroot_answer a =
        clevisroot_read(TABLES(set), x, room(first), y, room(second), 1, frame, bytes);
    CHECK(a.number == expected(nulls, CLEVISROOT_OFFGRID));
    a = clevisroot_read(TABLES(set), x, room(first), y, room(second), 1, NULL, 0);
    CHECK(a.number == expected(nulls, CLEVISROOT_ROOM));
    a = clevisroot_read_at(TABLES(set), x, room(first), y, room(second), 1, frame, bytes, START);
    CHECK(a.number == expected(nulls, CLEVISROOT_OFFGRID));
    a = clevisroot_read_at(TABLES(set), x, room(first), y, room(second), 1, NULL, 0, START);
    CHECK(a.number == expected(nulls, CLEVISROOT_ROOM));
}

/* Uncoded, the working buffer has 0 bytes, so that a null one is right. */
static void read_nearest(const table_set *set, unsigned nulls)
{
    static const int16_t zeros[A_TONES];
    uint8_t frame[2], work[A_WORK];
    unsigned first = nulls & FIRST, second = nulls & SECOND;
    const int16_t *x = first ? NULL : zeros, *y = second ? NULL : zeros;
    size_t bytes = set->coded ? 1 : 2, work_len = set->coded ? A_WORK : 0;
    clevisroot_nearest a =
        clevisroot_read_nearest(TABLES(set), x, room(first), y, room(second), 1, frame, bytes,
                                START, work, work_len);
    CHECK(a.number == expected(nulls, CLEVISROOT_DONE));
    a = clevisroot_read_nearest(TABLES(set), x, room(first), y, room(second), 1, NULL, 0, START,
                                work, work_len);
    CHECK(a.number == expected(nulls, CLEVISROOT_ROOM));
    a = clevisroot_read_nearest(TABLES(set), x, room(first), y, room(second), 1, frame, bytes,
                                START, NULL, 0);
    CHECK(a.number == expected(nulls, set->coded ? CLEVISROOT_ROOM : CLEVISROOT_DONE));
}

/* The points are (0, 0), so the monitored one is neither. */
static void clip_check(const table_set *set, unsigned nulls)
{
    static const int16_t zeros[A_TONES];
    unsigned first = nulls & FIRST, second = nulls & SECOND;
    const int16_t *x = first ? NULL : zeros, *y = second ? NULL : zeros;
    uint32_t number = expected(nulls, CLEVISROOT_DONE);
    hold_clip(set, x, room(first), y, room(second), 1, number, 0,
              number ? 0 : CLEVISROOT_CLIP_NEITHER);
    hold_clip(set, x, room(first), y, room(second), 0, expected(nulls, CLEVISROOT_SEED), 0, 0);
}

static void every_way(uint8_t coded)
{
    for (unsigned nulls = 0; nulls < WAYS; nulls++) {
        table_set set = tables_with(coded, nulls);
        check_and_reorder(&set, nulls);
        encode(&set, nulls);
        read_points(&set, nulls);
        read_nearest(&set, nulls);
        clip_check(&set, nulls);
    }
}

/*
 * L is 0 where no tone has data: the empty frame is accepted and read, also as a null pointer. Of register
 * 4 the silent tone draws 0 and 0, the monitored one 1 and 0.
 */
static void empty_frame(void)
{
    static const uint8_t bits[2] = {0, 0};
    static const uint16_t gains[2] = {0, 512}, tones[2] = {0, 1};
    table_set set = {0, bits, 2, gains, 2, tones, 2};
    int16_t x[2], y[2];
    clevisroot_answer a = clevisroot_encode(TABLES(&set), NULL, 0, 4, x, 2, y, 2);
    CHECK(a.number == CLEVISROOT_DONE && a.size == 0);
    CHECK(x[0] == 0 && y[0] == 0 && x[1] == 1 && y[1] == -1);
    clevisroot_answer b = clevisroot_read(TABLES(&set), x, 2, y, 2, 4, NULL, 0);
    CHECK(b.number == CLEVISROOT_DONE && b.size == 0 && b.reg == a.reg);
    a = clevisroot_encode_at(TABLES(&set), NULL, 0, 0, 4, x, 2, y, 2);
    CHECK(a.number == CLEVISROOT_DONE && a.size == 0 && b.reg == a.reg);
    b = clevisroot_read_at(TABLES(&set), x, 2, y, 2, 4, NULL, 0, 0);
    CHECK(b.number == CLEVISROOT_DONE && b.size == 0 && b.reg == a.reg);
    clevisroot_nearest c =
        clevisroot_read_nearest(TABLES(&set), x, 2, y, 2, 4, NULL, 0, 0, NULL, 0);
    CHECK(c.number == CLEVISROOT_DONE && c.size == 0 && c.reg == a.reg && c.total == 0);
}

/* The frames of a tally's entries, null or not; a length other than 0 is 1. */
static void tallies(const uint8_t *sent, size_t sent_len, const uint8_t *read, size_t read_len)
{
    clevisroot_tally tally = clevisroot_tally_new(), full = tally;
    full.symbols = CLEVISROOT_MAX_SYMBOLS;
    uint32_t number = sent_len == read_len ? CLEVISROOT_DONE : CLEVISROOT_FRAME;
    CHECK(clevisroot_tally_read(tally, sent, sent_len, read, read_len).number == number);
    CHECK(clevisroot_tally_read(full, sent, sent_len, read, read_len).number == CLEVISROOT_FULL);
    CHECK(clevisroot_tally_refused(tally, sent, sent_len, 1).number == CLEVISROOT_DONE);
    CHECK(clevisroot_tally_refused(tally, sent, sent_len, 0).number == CLEVISROOT_FRAME);
    CHECK(clevisroot_tally_refused(full, sent, sent_len, 1).number == CLEVISROOT_FULL);
}

/* Each frame null, empty, or one byte. */
static void every_frame_way(void)
{
    static const uint8_t byte;
    for (unsigned k = 0; k < 9; k++) {
        unsigned first = k / 3, second = k % 3;
        tallies(first ? &byte : NULL, first / 2, second ? &byte : NULL, second / 2);
    }
}

int main(void)
{
    every_way(0);
    every_way(1);
    empty_frame();
    every_frame_way();
    return verdict("null");
}
