/*
 * Clevisroot: the symbol core of a VDSL2 tester (G.993.2 clause 10.3).
 *
 * Machines: x86-64 only, as ELF objects with the System V calling convention, because it is built
 * and tested for nothing else. For an Arm board there is no archive to link: run the core on an
 * x86-64 host beside it, or write your own from docs/RULES.md and hold it to this one.
 *
 * It checks bit, gain and tone tables, re-orders them, turns a frame of bits into one integer
 * point per tone, and turns points back into the frame, noisy ones into the nearest: with trellis
 * coding or without. For the report of a pair it counts wrong bits and refused symbols, and it tells
 * from one tone whether a clip is the wrong way round.
 *
 * Link with libclevisroot.a (pkg-config: clevisroot). The archive needs memcpy and memset and no
 * other symbol, at most CLEVISROOT_STACK bytes of stack (clevisroot_read_nearest:
 * CLEVISROOT_NEAREST_STACK), no heap and no global state. It is re-entrant: any number of threads may
 * call it at the same time. It keeps no pointer after a call. A pointer may be null where its length
 * is 0. An output or a working buffer must not overlap any other argument. All lengths count entries.
 *
 * The functions that are declared below are proved. Those that are written out in this header and in
 * clevisroot_names.h are plain C, so that the archive holds proved functions only.
 *
 * THE TABLES
 *
 * Every call that takes tables takes the same seven arguments first, but for clevisroot_clip_check,
 * whose tables are coded, so that it has no `coded`:
 *
 *   coded             0: uncoded; anything else: trellis coded
 *   bits,  bits_len   bits[i] is the bit count of sub-carrier i, 0 to 15; G = bits_len, 1 to 4096
 *   gains, gains_len  gains[i] is its gain, 0 to 4095, where 512 stands for 1; gains_len is G too
 *   tones, tones_len  the tone table t: distinct sub-carriers below G; NSC = tones_len, 1 to G
 *
 * A tone with bits carries data and must have a gain. A tone with 0 bits and a gain is monitored:
 * it carries two filler bits that both ends know. A tone with 0 bits and gain 0 is silent: its
 * point is (0, 0). A sub-carrier that is not in t must have 0 bits and gain 0.
 *
 * FRAMES AND POINTS
 *
 * A frame has L bits, packed. L follows from the tables; clevisroot_check tells it. Where a call is
 * given no start, bit k is in byte k / 8, at weight 1 << (k % 8); the frame has exactly (L + 7) / 8
 * bytes (clevisroot_frame_bytes), and its unused high bits are 0.
 *
 * A frame need not begin on a byte. clevisroot_encode_at, clevisroot_read_at and
 * clevisroot_read_nearest are given its start, 0 to 7, which is the bit of the first byte that holds
 * the frame's bit 0: bit k is then in byte (start + k) / 8, at weight 1 << ((start + k) % 8). Such a
 * frame has exactly (start + L + 7) / 8 bytes (clevisroot_frame_bytes_at), at most
 * CLEVISROOT_MAX_FRAME, so one byte if L is 0 and the start is not. Its bits before the start and after
 * the end are 0. The same L bits give the same points with any start; clevisroot_encode and
 * clevisroot_read are the calls with start 0.
 *
 * The points of a symbol are two lists, x and y, of NSC entries each. They are in the order of the
 * re-ordered tone table t', which clevisroot_reorder writes: x[p] and y[p] belong to tone t'[p].
 * Uncoded, t' is t. Coded, the 1-bit tones go to the end; they and all others keep their order in t.
 *
 * NOISE
 *
 * clevisroot_read and clevisroot_read_at read points that carry no noise. clevisroot_read_nearest
 * takes received points that lie anywhere, each coordinate -1023 to 1023, and decides for a frame
 * whose written points have the smallest total of squared distances to them. The total is the sum of
 * (X - x)^2 + (Y - y)^2 over the tones with data; monitored and silent tones do not count in it. No
 * frame has a smaller one. Where several frames share it, which of them is given is free. On points
 * that clevisroot_read_at reads, the total is 0 and the frame is the same.
 *
 * Coded, it follows the 16 states of the code pair by pair in a working buffer that it is lent: 16
 * bytes a pair, so 16 * ((N + 1) / 2) bytes, where N is the number of non-zero entries in b'
 * (clevisroot_work_bytes), at most CLEVISROOT_MAX_WORK. Uncoded, it has 0 bytes. The buffer is no
 * output: what it holds before the call does not matter, and what a call that is done leaves in it is
 * free.
 *
 * THE REGISTER
 *
 * The filler bits come from a register, 1 to 8388607, CLEVISROOT_RESET at the start. Encoding and
 * reading are given the register and hand it back after the draws: two bits for each tone with 0
 * bits, in the order of t'; those of a silent tone are thrown away. Give it to the next symbol. A
 * reader must be given what the writer was given.
 *
 * THE PAIR REPORT
 *
 * A tally counts over the symbols of a pair: how many were given, how many of them were refused, how
 * many were read as another frame than was sent, in how many bits, and which was the first that was
 * refused. It is a struct that the caller owns; clevisroot_tally_new makes a new one, and to reset is to
 * begin with a new one. Each symbol is an entry, given once: the frame that was sent with either the
 * frame that was read (clevisroot_tally_read) or the number of the refusal (clevisroot_tally_refused).
 * The answer has the tally to go on with. Wrong bits are the ones in the exclusive-or of the two
 * frames; a symbol that was refused adds none. An entry that the tally refuses, with 22 or 11, leaves it
 * as it was. After any calls from a new tally the figures are those of the entries that were accepted
 * since the last reset.
 *
 * A tally holds 65535 symbols, and its figures fit 32 bits however these were read. Any numbers may
 * come in from outside: a figure that would not fit becomes UINT32_MAX, and first_refused is set only
 * where it is CLEVISROOT_NONE_REFUSED.
 *
 * ANSWERS AND REFUSALS
 *
 * Every answer has a number: 0 if the call is done, else the number below. If several refusals
 * apply, the smallest number is given (but clevisroot_read_point and
 * clevisroot_plain_read_point test 16 before 13, and the calls of a tally 22 before 11). So in reading without noise all places pass 13 before any is tested for 14,
 * and all 14 before any pair is tested for 15. A refused call writes nothing to any buffer, has size,
 * total and clip 0, and hands the register back as it was given. A call that is done writes the whole
 * of each output.
 *
 *   no.  given exactly when                                              place
 *   1    G is not 1 to 4096, gains_len is not G, NSC is 0 or above G     0
 *   2    an entry of t is G or more                                      first place in t
 *   3    an entry of t equals an earlier one                             first such place in t
 *   4    a bit count is above 15                                         smallest sub-carrier
 *   5    a sub-carrier not in t has bits or a gain                       smallest sub-carrier
 *   6    a gain is above 4095, or bits come with gain 0                  smallest sub-carrier
 *   7    coded: the number of 1-bit tones is odd                         0
 *   8    coded: fewer than 4 non-zero entries in b'                      0
 *   9    unused: no call gives it
 *   10   a lent output, a point list or a working buffer has not its     0
 *        exact length
 *   11   the start is above 7; or, of a frame to be encoded, the length  0
 *        is wrong, or a bit before the start or after the end is 1; or,
 *        of a tally's entry, the two frames' lengths differ, a frame is
 *        above 7681 bytes, or the refusal's number is 0
 *   12   the register is 0 or above 8388607                              0
 *   13   a point is not one that its tone can have                       first place in t'
 *   14   a monitored tone's point is not the one its filler bits give    first place in t'
 *   15   a pair of entries breaks the trellis code                       number of the first pair
 *   16   one-tone calls: bits not 1 to 15, or label not below 2^bits     0
 *   17 to 21 unused: no call gives them
 *   22   a tally holds 65535 symbols or more                             0
 *   23   nearest reading: a coordinate is below -1023 or above 1023      first place in t'
 *
 * Places, sub-carriers and pairs count from 0. For 13 a monitored tone can have the points of 2
 * bits, a silent one (0, 0) only. For 23 every place counts, also a monitored or a silent one. Pairs
 * are cut from the non-zero entries of b' in order; if their count is odd, the first entry makes pair 0
 * on its own. A pair breaks the trellis code if no frame gives its two labels in the state that the
 * pairs before it leave.
 *
 * HALF A TURN
 *
 * If the two wires of the pair are exchanged (the clips are the wrong way round), every point
 * (X, Y) arrives as (-X, -Y). Coded, reading without noise refuses such a symbol with 14 if any tone
 * is monitored, and with 15 if none is and the count of non-zero entries in b' is odd. If none is
 * monitored and the count is even, the turned symbol is read as another frame, and no refusal tells.
 * Nearest reading never refuses it: it compares no monitored point.
 *
 * QUARTER TURNS
 *
 * If a hybrid turns the points by a quarter, every (X, Y) arrives as (-Y, X), or every one as (Y, -X).
 * Coded, reading without noise always refuses such a symbol: with 13 at the first 1-bit tone in t'; if
 * there is none, with 14 at the first monitored tone; if there is neither, with 15, at pair 0 if the
 * count of non-zero entries in b' is odd or is 4, else at pair 1. With another register than the
 * writer's it is refused too, by one of the three. Uncoded, 13 and 14 tell it in the same way; with
 * neither such tone it is read, as another frame if L is above 0. Nearest reading never refuses it.
 *
 * IS THE CLIP THE WRONG WAY ROUND?
 *
 * clevisroot_clip_check asks the first monitored tone in t', and looks at no other point. Its clip is
 *
 *   1  straight    the tone's point is the one that its filler bits give
 *   2  turned      it is the opposite point
 *   3  neither     it is another one: a quarter turn, noise, another register, or no symbol of these
 *                  tables
 *   4  can't tell  no tone is monitored
 *
 * and 0 where the call is refused. If some tone is monitored, and the points are a symbol written with
 * these tables and this register, or one turned by half a turn, it answers what two readings would:
 * straight exactly when the points are read as they are, turned exactly when they are read with all
 * signs changed. Of such a symbol turned by a quarter it answers neither. It rests on that one tone, on
 * the tables and on the register: with another register than the writer's the tone looks straight about
 * one time in four, and turned about one time in four. Straight does not say that the symbol will be
 * read, for all other points may be anything. After the checks of the tables it goes over bits and gains
 * once, and along t at most once, as far as that tone.
 */
#ifndef CLEVISROOT_H
#define CLEVISROOT_H

#include <stddef.h>
#include <stdint.h>

#ifdef __cplusplus
extern "C" {
#endif

#define CLEVISROOT_VERSION_MAJOR 0
#define CLEVISROOT_VERSION_MINOR 1
#define CLEVISROOT_VERSION_PATCH 0
#define CLEVISROOT_VERSION_TEXT "0.1.0"

/* The version as one number that grows, for #if: 1.2.3 is 10203. */
#define CLEVISROOT_VERSION \
    (CLEVISROOT_VERSION_MAJOR * 10000 + CLEVISROOT_VERSION_MINOR * 100 + CLEVISROOT_VERSION_PATCH)

/* The largest G, and so the most tones and points of a symbol. */
#define CLEVISROOT_MAX_TONES 4096

/* The most bytes of a frame: 4096 tones of 15 bits, uncoded, from a start of 1 to 7. */
#define CLEVISROOT_MAX_FRAME 7681

/* The most bytes of a working buffer: 4096 entries, so 2048 pairs. */
#define CLEVISROOT_MAX_WORK 32768

/*
 * The most bytes of stack that a call takes, its own frame and those below: clevisroot_read_nearest,
 * and any other. Measured, not proved.
 */
#define CLEVISROOT_NEAREST_STACK 147456
#define CLEVISROOT_STACK 57344

/* The numbers of the answers; clevisroot_names.h has their names for logs. */
enum {
    CLEVISROOT_DONE = 0,
    CLEVISROOT_SIZE = 1,
    CLEVISROOT_TONE = 2,
    CLEVISROOT_TWICE = 3,
    CLEVISROOT_BITS = 4,
    CLEVISROOT_STRAY = 5,
    CLEVISROOT_GAIN = 6,
    CLEVISROOT_ODD = 7,
    CLEVISROOT_FEW = 8,
    CLEVISROOT_ROOM = 10,
    CLEVISROOT_FRAME = 11,
    CLEVISROOT_SEED = 12,
    CLEVISROOT_OFFGRID = 13,
    CLEVISROOT_MONITOR = 14,
    CLEVISROOT_TRELLIS = 15,
    CLEVISROOT_LABEL = 16,
    CLEVISROOT_FULL = 22,
    CLEVISROOT_RANGE = 23
};

/* What clevisroot_clip_check tells; 0 where it is refused, so that no refusal looks like "straight". */
enum {
    CLEVISROOT_CLIP_STRAIGHT = 1,
    CLEVISROOT_CLIP_TURNED = 2,
    CLEVISROOT_CLIP_NEITHER = 3,
    CLEVISROOT_CLIP_CANT_TELL = 4
};

/* The register at reset. */
#define CLEVISROOT_RESET UINT32_C(8388607)

/* The most symbols that a tally holds. As the number of the first refused symbol: none was refused. */
#define CLEVISROOT_MAX_SYMBOLS 65535
#define CLEVISROOT_NONE_REFUSED 65535

/* What the calls with tables answer, but for clevisroot_read_nearest and clevisroot_clip_check. */
typedef struct {
    uint32_t number; /* 0 or the refusal */
    uint32_t place;  /* where the refusal applies, 0 if done */
    uint32_t size;   /* L, 0 on refusal */
    uint32_t reg;    /* the register after the draws; as given on refusal; 0 if none was given */
} clevisroot_answer;

/* What clevisroot_read_nearest answers: the same, and the total of squared distances. */
typedef struct {
    uint32_t number, place, size, reg;
    uint64_t total; /* 0 on refusal */
} clevisroot_nearest;

/* What clevisroot_clip_check answers. */
typedef struct {
    uint32_t number, place;
    uint32_t clip; /* CLEVISROOT_CLIP_STRAIGHT and so on; 0 on refusal */
    uint32_t reg;  /* the register as given, always */
} clevisroot_clip;

typedef struct {
    uint32_t number;
    int16_t x, y; /* 0, 0 on refusal */
} clevisroot_point;

typedef struct {
    uint32_t number;
    uint32_t label; /* 0 on refusal */
} clevisroot_label;

typedef struct {
    uint32_t number;
    uint32_t bit; /* 0 or 1; 0 on refusal */
    uint32_t reg; /* the register after the draw; as given on refusal */
} clevisroot_drawn;

/* The report of a pair. Symbols count from 0. */
typedef struct {
    uint32_t symbols;       /* symbols given */
    uint32_t refused;       /* symbols refused */
    uint32_t wrong_frames;  /* frames read as another than was sent */
    uint32_t wrong_bits;    /* bits that differ in them */
    uint32_t first_refused; /* the first refused symbol; CLEVISROOT_NONE_REFUSED if none */
} clevisroot_tally;

typedef struct {
    uint32_t number;
    clevisroot_tally tally; /* with the entry; as given on refusal */
} clevisroot_tallied;

/* The version of this header as text. */
static inline const char *clevisroot_version(void)
{
    return CLEVISROOT_VERSION_TEXT;
}

/* The bytes of a frame of L bits that starts at this bit of its first byte; L is an answer's size. */
static inline size_t clevisroot_frame_bytes_at(uint32_t size, uint8_t start)
{
    return ((size_t)start + size + 7) / 8;
}

/* The bytes of a frame of L bits that starts at bit 0. */
static inline size_t clevisroot_frame_bytes(uint32_t size)
{
    return clevisroot_frame_bytes_at(size, 0);
}

/*
 * The bytes of the working buffer, for tables that clevisroot_check accepts. The tone table is not
 * needed: sub-carriers outside it have 0 bits.
 */
static inline size_t clevisroot_work_bytes(uint8_t coded, const uint8_t *bits, size_t bits_len)
{
    size_t ones = 0, others = 0;
    for (size_t k = 0; k < bits_len; k++) {
        ones += bits[k] == 1;
        others += bits[k] > 1;
    }
    return coded ? 16 * ((others + ones / 2 + 1) / 2) : 0;
}

/* Checks the tables and tells L. Refusals 1 to 8. */
clevisroot_answer clevisroot_check(
    uint8_t coded, const uint8_t *bits, size_t bits_len,
    const uint16_t *gains, size_t gains_len, const uint16_t *tones, size_t tones_len);

/*
 * Writes the re-ordered tables: t' to tones_out and b' to bits_out, NSC entries each.
 * Uncoded, b' has the bits in t order. Coded, it has zeros first, as many as NSC is above the number
 * of the others, then the counts of at least 2 in t' order, then a 2 for each two 1-bit tones that
 * follow each other in t'.
 * Refusals 1 to 8, then 10 if an output has not NSC entries.
 */
clevisroot_answer clevisroot_reorder(
    uint8_t coded, const uint8_t *bits, size_t bits_len,
    const uint16_t *gains, size_t gains_len, const uint16_t *tones, size_t tones_len,
    uint16_t *tones_out, size_t tones_out_len, uint8_t *bits_out, size_t bits_out_len);

/*
 * Writes the points of a frame to x and y, NSC entries each: clevisroot_encode_at with start 0.
 * Refusals 1 to 8, then 10 if x or y has not NSC entries, 11 for the frame, 12 for the register.
 */
clevisroot_answer clevisroot_encode(
    uint8_t coded, const uint8_t *bits, size_t bits_len,
    const uint16_t *gains, size_t gains_len, const uint16_t *tones, size_t tones_len,
    const uint8_t *frame, size_t frame_len, uint32_t reg,
    int16_t *x, size_t x_len, int16_t *y, size_t y_len);

/*
 * Writes the points of a frame that starts at this bit of its first byte to x and y, NSC entries
 * each.
 * Refusals 1 to 8, then 10 if x or y has not NSC entries, 11 for the start and the frame, 12 for the
 * register.
 */
clevisroot_answer clevisroot_encode_at(
    uint8_t coded, const uint8_t *bits, size_t bits_len,
    const uint16_t *gains, size_t gains_len, const uint16_t *tones, size_t tones_len,
    const uint8_t *frame, size_t frame_len, uint8_t start, uint32_t reg,
    int16_t *x, size_t x_len, int16_t *y, size_t y_len);

/*
 * Reads points that carry no noise and writes their frame, (L + 7) / 8 bytes: clevisroot_read_at with
 * start 0. It reads exactly the points that clevisroot_encode writes for some frame, and gives that
 * frame.
 * Refusals 1 to 8, then 10 if x or y has not NSC entries or the frame not its bytes, 12 for the
 * register, then 13 at every place, 14 at every place, 15.
 */
clevisroot_answer clevisroot_read(
    uint8_t coded, const uint8_t *bits, size_t bits_len,
    const uint16_t *gains, size_t gains_len, const uint16_t *tones, size_t tones_len,
    const int16_t *x, size_t x_len, const int16_t *y, size_t y_len, uint32_t reg,
    uint8_t *frame, size_t frame_len);

/*
 * Reads points that carry no noise and writes their frame so that it starts at this bit of its first
 * byte: (start + L + 7) / 8 bytes, zeros before the start and after the end. It reads exactly the
 * points that clevisroot_encode_at writes for some frame with this start, and gives that frame.
 * Refusals 1 to 8; then 10 if x or y has not NSC entries, or the frame not (start + L + 7) / 8 bytes,
 * whatever the start; 11 if the start is above 7; 12 for the register; then 13 at every place, 14 at
 * every place, 15.
 */
clevisroot_answer clevisroot_read_at(
    uint8_t coded, const uint8_t *bits, size_t bits_len,
    const uint16_t *gains, size_t gains_len, const uint16_t *tones, size_t tones_len,
    const int16_t *x, size_t x_len, const int16_t *y, size_t y_len, uint32_t reg,
    uint8_t *frame, size_t frame_len, uint8_t start);

/*
 * Reads received points as a nearest frame and writes it so that it starts at this bit of its first
 * byte: (start + L + 7) / 8 bytes, zeros before the start and after the end. Of all frames with
 * this start, none has points, as clevisroot_encode_at writes them, with a smaller total of squared
 * distances to x and y; the answer has that total. The register moves as in clevisroot_read_at.
 * Refusals 1 to 8; then 10 if x or y has not NSC entries, the frame not (start + L + 7) / 8 bytes,
 * whatever the start, or work not the bytes of clevisroot_work_bytes; 11 if the start is above 7; 12
 * for the register; then 23 at every place. There are no others: 13 to 15 do not apply.
 */
clevisroot_nearest clevisroot_read_nearest(
    uint8_t coded, const uint8_t *bits, size_t bits_len,
    const uint16_t *gains, size_t gains_len, const uint16_t *tones, size_t tones_len,
    const int16_t *x, size_t x_len, const int16_t *y, size_t y_len, uint32_t reg,
    uint8_t *frame, size_t frame_len, uint8_t start, uint8_t *work, size_t work_len);

/*
 * Tells from the first monitored tone in t' whether the clip is the wrong way round. The tables are
 * coded. It draws no bits for the caller: the register comes back as it was given, also when the call
 * is done. Read the symbol with the same register.
 * Refusals 1 to 8, then 10 if x or y has not NSC entries, 12 for the register.
 */
clevisroot_clip clevisroot_clip_check(
    const uint8_t *bits, size_t bits_len,
    const uint16_t *gains, size_t gains_len, const uint16_t *tones, size_t tones_len,
    const int16_t *x, size_t x_len, const int16_t *y, size_t y_len, uint32_t reg);

/* The point of one label. Refusal 16 if bits is not 1 to 15, or label not below 2^bits. */
clevisroot_point clevisroot_map_label(uint8_t bits, uint32_t label);

/* The label of one point. Refusal 16 if bits is not 1 to 15, then 13 if no label has the point. */
clevisroot_label clevisroot_read_point(uint8_t bits, int16_t x, int16_t y);

/*
 * The same two by a second mapper, which nobody tuned: b bits are mapped and read by way of b - 2 bits,
 * down to 2, 3 or 5 (and 1 on its own). It has no table, constant or helper of the first mapper's. For
 * all inputs both give the same point, label or refusal; that is proved. It is slower.
 */
clevisroot_point clevisroot_plain_map_label(uint8_t bits, uint32_t label);
clevisroot_label clevisroot_plain_read_point(uint8_t bits, int16_t x, int16_t y);

/* Draws one filler bit. Refusal 12 if the register is 0 or above 8388607. */
clevisroot_drawn clevisroot_draw(uint32_t reg);

/* A new tally, which is as reset: no symbol was given. */
clevisroot_tally clevisroot_tally_new(void);

/*
 * Counts a symbol that was read: the frame that was sent, and the one that was read.
 * Refusals 22 if the tally holds 65535 symbols or more; then 11 if the frames' lengths differ or are
 * above CLEVISROOT_MAX_FRAME bytes.
 */
clevisroot_tallied clevisroot_tally_read(
    clevisroot_tally tally, const uint8_t *sent, size_t sent_len,
    const uint8_t *read, size_t read_len);

/*
 * Counts a symbol that was refused: the frame that was sent, and the number of the refusal, which may
 * be any but 0.
 * Refusals 22 if the tally holds 65535 symbols or more; then 11 if the frame is above
 * CLEVISROOT_MAX_FRAME bytes or the number is 0.
 */
clevisroot_tallied clevisroot_tally_refused(
    clevisroot_tally tally, const uint8_t *sent, size_t sent_len, uint32_t refusal);

#ifdef __cplusplus
}
#endif

#endif
