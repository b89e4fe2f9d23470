/* The interface of include/foldgrebe.h in plain C: the library's calls as a C programmer would write them, the covered rows in lists.
   It is the measure for the library's speed, and a second body for tests/run to try its rig on.

   A word is 32 lanes at once: the xor of the rows that one check row covers is that digit of the sum in every lane. Rows 1 and 2 are
   stored complemented, so digits 0 and 1 of a valid block come out as ones; nothing else knows of it but format and version 1 files. */
#include <string.h>
#include "foldgrebe.h"

enum { MOST_ROWS = 72, MOST_DATA = 64, MOST_DIGITS = 7, MOST_BLOCKS = 4096, COMPLEMENTED_ROWS = 2 };
static const uint32_t ONES = UINT32_MAX;

#define INLINE static inline __attribute__((always_inline))

/* The rows that are no check rows, lowest first. */
static const uint8_t data_rows_16[11] = { 3, 5, 6, 7, 9, 10, 11, 12, 13, 14, 15 };
static const uint8_t data_rows_72[64] = {
    3, 5, 6, 7, 9, 10, 11, 12, 13, 14, 15, 17, 18, 19, 20, 21, 22, 23, 24, 25, 26, 27, 28, 29, 30, 31, 33, 34, 35, 36, 37, 38,
    39, 40, 41, 42, 43, 44, 45, 46, 47, 48, 49, 50, 51, 52, 53, 54, 55, 56, 57, 58, 59, 60, 61, 62, 63, 65, 66, 67, 68, 69, 70, 71,
};

/* The rows that the check rows cover. Rows 1, 2 and the last share theirs, listed by the last two binary digits. */
static const uint8_t ending_16[4][4] = {
    { 4, 8, 12, 16 },
    { 1, 5, 9, 13 },
    { 2, 6, 10, 14 },
    { 3, 7, 11, 15 },
};
static const uint8_t covered_16[2][8] = {
    { 4, 5, 6, 7, 12, 13, 14, 15 },
    { 8, 9, 10, 11, 12, 13, 14, 15 },
};
static const uint8_t ending_72[4][18] = {
    { 4, 8, 12, 16, 20, 24, 28, 32, 36, 40, 44, 48, 52, 56, 60, 64, 68, 72 },
    { 1, 5, 9, 13, 17, 21, 25, 29, 33, 37, 41, 45, 49, 53, 57, 61, 65, 69 },
    { 2, 6, 10, 14, 18, 22, 26, 30, 34, 38, 42, 46, 50, 54, 58, 62, 66, 70 },
    { 3, 7, 11, 15, 19, 23, 27, 31, 35, 39, 43, 47, 51, 55, 59, 63, 67, 71 },
};
static const uint8_t covered_72[5][36] = {
    { 4, 5, 6, 7, 12, 13, 14, 15, 20, 21, 22, 23, 28, 29, 30, 31, 36, 37, 38, 39, 44, 45, 46, 47, 52, 53, 54, 55, 60,
      61, 62, 63, 68, 69, 70, 71 },
    { 8, 9, 10, 11, 12, 13, 14, 15, 24, 25, 26, 27, 28, 29, 30, 31, 40, 41, 42, 43, 44, 45, 46, 47, 56, 57, 58, 59,
      60, 61, 62, 63 },
    { 16, 17, 18, 19, 20, 21, 22, 23, 24, 25, 26, 27, 28, 29, 30, 31, 48, 49, 50, 51, 52, 53, 54, 55, 56, 57, 58, 59,
      60, 61, 62, 63 },
    { 32, 33, 34, 35, 36, 37, 38, 39, 40, 41, 42, 43, 44, 45, 46, 47, 48, 49, 50, 51, 52, 53, 54, 55, 56, 57, 58, 59,
      60, 61, 62, 63 },
    { 64, 65, 66, 67, 68, 69, 70, 71 },
};

/* A block's rows, gathered; row p is row[p - 1]. */
typedef struct { uint32_t row[MOST_ROWS]; } gathered;

/* The digits of every lane's sum, and the lanes whose parity is odd. */
typedef struct { uint32_t digit[MOST_DIGITS], odd; } findings;

typedef struct { uint32_t verdict, count, beyond; } outcome;

INLINE void put_verdict(uint32_t *words, outcome o)
{
    words[FOLDGREBE_VERDICT_NUMBER] = o.verdict, words[FOLDGREBE_VERDICT_COUNT] = o.count, words[FOLDGREBE_VERDICT_BEYOND] = o.beyond;
}

INLINE unsigned rows_of(uint32_t shape) { return shape == 1 ? 16 : 72; }
INLINE unsigned data_of(uint32_t shape) { return shape == 1 ? 11 : 64; }
INLINE unsigned digits_of(uint32_t shape) { return shape == 1 ? 4 : 7; }

INLINE uint32_t ones(uint32_t x)
{
    x -= x >> 1 & 0x55555555u;
    x = (x & 0x33333333u) + (x >> 2 & 0x33333333u);
    return ((x + (x >> 4)) & 0x0f0f0f0fu) * 0x01010101u >> 24;
}

/* Where row 1 of a block lies; its further rows follow s words apart. */
INLINE size_t first_row(uint32_t shape, uint32_t s, uint32_t block)
{
    return (size_t)(block / s) * rows_of(shape) * s + block % s;
}

INLINE void gather(gathered *b, const uint32_t *at, uint32_t s, unsigned rows)
{
    if (s == 1) { memcpy(b->row, at, rows * sizeof *at); return; }
#pragma GCC unroll 8
    for (unsigned p = 0; p < rows; p++, at += s) b->row[p] = *at;
}

INLINE void scatter(const gathered *b, uint32_t *at, uint32_t s, unsigned rows)
{
    if (s == 1) { memcpy(at, b->row, rows * sizeof *at); return; }
#pragma GCC unroll 8
    for (unsigned p = 0; p < rows; p++, at += s) *at = b->row[p];
}

INLINE uint32_t covered(const uint32_t *row, const uint8_t *list, unsigned n)
{
    uint32_t x = 0;
#pragma GCC unroll 36
    for (unsigned i = 0; i < n; i++) x ^= row[list[i] - 1];
    return x;
}

/* Digits 0 and 1 and the parities, from the stored rows by the last two binary digits of their numbers; the parity has both complements. */
INLINE void look_low(findings *f, uint32_t end_00, uint32_t end_01, uint32_t end_10, uint32_t end_11)
{
    uint32_t first = end_01 ^ end_11, second = end_10 ^ end_11;
    f->digit[0] = first ^ ONES;
    f->digit[1] = second ^ ONES;
    f->odd = first ^ end_00 ^ end_10;
}

INLINE findings look_16(const uint32_t *row)
{
    findings f;
    look_low(&f, covered(row, ending_16[0], 4), covered(row, ending_16[1], 4), covered(row, ending_16[2], 4), covered(row, ending_16[3], 4));
#pragma GCC unroll 2
    for (unsigned k = 2; k < 4; k++) f.digit[k] = covered(row, covered_16[k - 2], 8);
    return f;
}

INLINE findings look_72(const uint32_t *row)
{
    findings f;
    look_low(&f, covered(row, ending_72[0], 18), covered(row, ending_72[1], 18), covered(row, ending_72[2], 18), covered(row, ending_72[3], 18));
    f.digit[2] = covered(row, covered_72[0], 36);
#pragma GCC unroll 3
    for (unsigned k = 3; k < 6; k++) f.digit[k] = covered(row, covered_72[k - 2], 32);
    f.digit[6] = covered(row, covered_72[4], 8);
    return f;
}

INLINE findings look(const uint32_t *row, uint32_t shape) { return shape == 1 ? look_16(row) : look_72(row); }

INLINE uint32_t any_digit(const findings *f, uint32_t shape)
{
    uint32_t any = 0;
#pragma GCC unroll 7
    for (unsigned k = 0; k < digits_of(shape); k++) any |= f->digit[k];
    return any;
}

/* Even with a sum. */
INLINE uint32_t lost_even(const findings *f, uint32_t shape) { return any_digit(f, shape) & ~f->odd; }

/* Odd with a sum of 72 or more, in shape 2 alone: 64 and at least one of 8, 16, 32. */
INLINE uint32_t lost_beyond(const findings *f, uint32_t shape)
{
    return shape == 1 ? 0 : f->odd & f->digit[6] & (f->digit[5] | f->digit[4] | f->digit[3]);
}

/* The row that a mendable lane wants flipped, counted from 0; a sum of 0 stands for the last row. */
INLINE unsigned wrong_row(const findings *f, unsigned lane, uint32_t shape)
{
    unsigned sum = 0;
#pragma GCC unroll 7
    for (unsigned k = 0; k < digits_of(shape); k++) sum |= (f->digit[k] >> lane & 1) << k;
    return (sum ? sum : rows_of(shape)) - 1;
}

/* Mends rows that lie stride words apart, going from one odd lane to the next. */
INLINE void mend(const findings *f, uint32_t *at, size_t stride, uint32_t shape)
{
    for (uint32_t left = f->odd; left; left &= left - 1) {
        unsigned lane = (unsigned)__builtin_ctz(left);
        at[wrong_row(f, lane, shape) * stride] ^= 1u << lane;
    }
}

INLINE outcome decide(const findings *f, uint32_t shape)
{
    if ((any_digit(f, shape) | f->odd) == 0) return (outcome){ FOLDGREBE_CLEAN, 0, 0 };
    uint32_t even = lost_even(f, shape), beyond = lost_beyond(f, shape);
    if (even | beyond) return (outcome){ FOLDGREBE_LOST, ones(even), ones(beyond) };
    return (outcome){ FOLDGREBE_MENDED, ones(f->odd), 0 };
}

INLINE outcome visit_as(uint32_t *at, uint32_t s, uint32_t shape)
{
    gathered b;
    /* 16 rows that are neighbours are looked at where they lie; of 72 rows gcc makes less work on a copy. */
    int in_place = s == 1 && shape == 1;
    if (!in_place) gather(&b, at, s, rows_of(shape));
    findings f = look(in_place ? at : b.row, shape);
    outcome o = decide(&f, shape);
    if (o.verdict == FOLDGREBE_MENDED) mend(&f, at, s, shape);
    return o;
}

static outcome visit(uint32_t *at, uint32_t s, uint32_t shape)
{
    return shape == 1 ? visit_as(at, s, 1) : visit_as(at, s, 2);
}

INLINE outcome read_as(const uint32_t *at, uint32_t s, uint32_t shape, uint32_t *buffer)
{
    gathered b;
    const uint8_t *data_rows = shape == 1 ? data_rows_16 : data_rows_72;
    gather(&b, at, s, rows_of(shape));
    findings f = look(b.row, shape);
    outcome o = decide(&f, shape);
    if (o.verdict == FOLDGREBE_LOST) return o;
    if (o.verdict == FOLDGREBE_MENDED) mend(&f, b.row, 1, shape);
#pragma GCC unroll 64
    for (unsigned i = 0; i < data_of(shape); i++) buffer[i] = b.row[data_rows[i] - 1];
    return o;
}

INLINE void place_as(gathered *b, uint32_t shape, const uint32_t *data)
{
    const uint8_t *data_rows = shape == 1 ? data_rows_16 : data_rows_72;
#pragma GCC unroll 7
    for (unsigned k = 0; k < digits_of(shape); k++) b->row[(1u << k) - 1] = 0;
    b->row[rows_of(shape) - 1] = 0;
#pragma GCC unroll 64
    for (unsigned i = 0; i < data_of(shape); i++) b->row[data_rows[i] - 1] = data[i];
}

/* The data words in their rows, and zeros in the check rows. */
static __attribute__((noinline)) void place(gathered *b, uint32_t shape, const uint32_t *data)
{
    if (shape == 1) place_as(b, 1, data); else place_as(b, 2, data);
}

INLINE void write_as(uint32_t *at, uint32_t s, uint32_t shape, const uint32_t *data)
{
    gathered b;
    unsigned rows = rows_of(shape);
    place(&b, shape, data);
    findings f = look(b.row, shape);
    uint32_t last = f.odd;
#pragma GCC unroll 7
    for (unsigned k = 0; k < digits_of(shape); k++) last ^= b.row[(1u << k) - 1] = f.digit[k];
    b.row[rows - 1] = last;
    scatter(&b, at, s, rows);
}

static uint32_t refuse_layout(uint32_t shape, uint32_t s, uint32_t g)
{
    if (shape != 1 && shape != 2) return 1;
    if (s == 0 || s > 16) return 2;
    if (g == 0 || (uint64_t)g * s > MOST_BLOCKS) return 3;
    return 0;
}

static uint32_t refuse_image(size_t words, uint32_t shape, uint32_t s, uint32_t g)
{
    uint32_t number = refuse_layout(shape, s, g);
    if (number) return number;
    return words == (size_t)rows_of(shape) * s * g ? 0 : 4;
}

static uint32_t refuse_block(size_t words, uint32_t shape, uint32_t s, uint32_t g, uint32_t block)
{
    uint32_t number = refuse_image(words, shape, s, g);
    if (number) return number;
    return block < s * g ? 0 : 6;
}

static uint32_t refuse_record(const uint32_t *record)
{
    uint32_t n = record[FOLDGREBE_RECORD_INTERLEAVE] * record[FOLDGREBE_RECORD_GROUPS], waiting = record[FOLDGREBE_RECORD_WAITING];
    const uint32_t *place = record + FOLDGREBE_RECORD_PLACES;
    if (record[FOLDGREBE_RECORD_NEXT] >= n || waiting > FOLDGREBE_PLACES) return 5;
    for (unsigned i = 0; i < waiting; i++) {
        if (place[i] >= n) return 5;
        for (unsigned j = 0; j < i; j++) if (place[j] == place[i]) return 5;
    }
    for (unsigned i = waiting; i < FOLDGREBE_PLACES; i++) if (place[i]) return 5;
    return 0;
}

/* Rows 1 and 2 of the blocks of a group are its first words. */
INLINE size_t group_words(uint32_t shape, uint32_t s) { return (size_t)rows_of(shape) * s; }
INLINE size_t complemented_words(uint32_t s) { return (size_t)COMPLEMENTED_ROWS * s; }

uint32_t foldgrebe_format(uint32_t *image, size_t words, uint32_t shape, uint32_t s, uint32_t g,
                          uint32_t record[FOLDGREBE_RECORD_WORDS])
{
    uint32_t number = refuse_image(words, shape, s, g);
    memset(record, 0, FOLDGREBE_RECORD_WORDS * sizeof *record);
    if (number) return number;
    memset(image, 0, words * sizeof *image);
    for (size_t at = 0; at < words; at += group_words(shape, s))
        for (size_t k = 0; k < complemented_words(s); k++) image[at + k] = ONES;
    record[FOLDGREBE_RECORD_SHAPE] = shape, record[FOLDGREBE_RECORD_INTERLEAVE] = s, record[FOLDGREBE_RECORD_GROUPS] = g;
    return 0;
}

uint32_t foldgrebe_write(uint32_t *image, size_t words, uint32_t shape, uint32_t s, uint32_t g, uint32_t block,
                         const uint32_t *data, size_t data_words)
{
    uint32_t number = refuse_block(words, shape, s, g, block);
    if (number) return number;
    if (data_words != data_of(shape)) return 7;
    uint32_t *at = image + first_row(shape, s, block);
    if (shape == 1) write_as(at, s, 1, data); else write_as(at, s, 2, data);
    return 0;
}

uint32_t foldgrebe_read(const uint32_t *image, size_t words, uint32_t shape, uint32_t s, uint32_t g, uint32_t block,
                        uint32_t *buffer, size_t buffer_words, uint32_t verdict[FOLDGREBE_VERDICT_WORDS])
{
    uint32_t number = refuse_block(words, shape, s, g, block);
    outcome o = { 0, 0, 0 };
    if (number == 0 && buffer_words != data_of(shape)) number = 7;
    if (number == 0) {
        const uint32_t *at = image + first_row(shape, s, block);
        o = shape == 1 ? read_as(at, s, 1, buffer) : read_as(at, s, 2, buffer);
    }
    put_verdict(verdict, o);
    return number;
}

uint32_t foldgrebe_visit(uint32_t *image, size_t words, uint32_t shape, uint32_t s, uint32_t g, uint32_t block,
                         uint32_t verdict[FOLDGREBE_VERDICT_WORDS])
{
    uint32_t number = refuse_block(words, shape, s, g, block);
    outcome o = { 0, 0, 0 };
    if (number == 0) o = visit(image + first_row(shape, s, block), s, shape);
    put_verdict(verdict, o);
    return number;
}

#ifdef FOLDGREBE_VISIT_AROUND
/* A named row's number as it goes into a lane's sum: the last row goes into the parity alone. */
INLINE uint32_t in_sum(uint32_t row, uint32_t shape) { return row == rows_of(shape) ? 0 : row; }

/* Takes these lanes' bits of a number out of the sums. */
INLINE void take_out(findings *f, uint32_t number, uint32_t lanes, uint32_t shape)
{
#pragma GCC unroll 7
    for (unsigned k = 0; k < digits_of(shape); k++) f->digit[k] ^= lanes & -(number >> k & 1);
}

/* The lanes whose sum is not this number. */
INLINE uint32_t other_sum(const findings *f, uint32_t number, uint32_t shape)
{
    uint32_t other = 0;
#pragma GCC unroll 7
    for (unsigned k = 0; k < digits_of(shape); k++) other |= f->digit[k] ^ -(number >> k & 1);
    return other;
}

/* One row is wrong in the odd lanes whose sum is its number, and in the even ones with a sum, which are wrong in one more row; once it is
   taken out, the rest is for an ordinary visit. */
INLINE outcome around_one(uint32_t *at, uint32_t s, findings *f, uint32_t row, uint32_t shape)
{
    uint32_t number = in_sum(row, shape), wrong = lost_even(f, shape) | (f->odd & ~other_sum(f, number, shape));
    take_out(f, number, wrong, shape);
    f->odd ^= wrong;
    uint32_t lost = lost_beyond(f, shape);
    if (lost) return (outcome){ FOLDGREBE_LOST, ones(lost), 0 };
    at[(size_t)(row - 1) * s] ^= wrong;
    mend(f, at, s, shape);
    return (outcome){ FOLDGREBE_MENDED, ones(wrong), ones(f->odd) };
}

/* A number with a digit in which another has none: that digit of the sums tells the lanes that it is in. It is taken out of them. */
INLINE uint32_t tell(findings *f, uint32_t number, uint32_t digits, uint32_t shape)
{
    uint32_t lanes = f->digit[__builtin_ctz(digits)];
    take_out(f, number, lanes, shape);
    return lanes;
}

/* The lanes wrong in each of two or three rows. The first row is taken out of every odd lane; what is left is a sum of the others'
   differences to it, and the lowest digit in which these differ tells one of them. Left in f is what no choice of the rows takes out. */
INLINE void solve(findings *f, const uint32_t *rows, size_t count, uint32_t shape, uint32_t wrong[FOLDGREBE_AROUND_ROWS])
{
    uint32_t first = in_sum(rows[0], shape), second = first ^ in_sum(rows[1], shape), third = count == 3 ? first ^ in_sum(rows[2], shape) : 0;
    uint32_t differ = (second ^ third) & -(second ^ third);
    take_out(f, first, f->odd, shape);
    if (second & differ) {
        wrong[1] = tell(f, second, differ, shape);
        wrong[2] = third ? tell(f, third, third, shape) : 0;
    } else {
        wrong[2] = tell(f, third, differ, shape);
        wrong[1] = tell(f, second, second, shape);
    }
    wrong[0] = f->odd ^ wrong[1] ^ wrong[2];
}

INLINE outcome around_more(uint32_t *at, uint32_t s, findings *f, const uint32_t *rows, size_t count, uint32_t shape)
{
    uint32_t wrong[FOLDGREBE_AROUND_ROWS], inside = 0;
    solve(f, rows, count, shape, wrong);
    uint32_t lost = any_digit(f, shape);
    if (lost) return (outcome){ FOLDGREBE_LOST, ones(lost), 0 };
    for (size_t i = 0; i < count; i++) at[(size_t)(rows[i] - 1) * s] ^= wrong[i], inside += ones(wrong[i]);
    return (outcome){ FOLDGREBE_MENDED, inside, 0 };
}

INLINE outcome around_as(uint32_t *at, uint32_t s, const uint32_t *rows, size_t count, uint32_t shape)
{
    gathered b;
    gather(&b, at, s, rows_of(shape));
    findings f = look(b.row, shape);
    if ((any_digit(&f, shape) | f.odd) == 0) return (outcome){ FOLDGREBE_CLEAN, 0, 0 };
    return count == 1 ? around_one(at, s, &f, rows[0], shape) : around_more(at, s, &f, rows, count, shape);
}

static uint32_t refuse_rows(const uint32_t *rows, size_t count, uint32_t shape)
{
    if (count > FOLDGREBE_AROUND_ROWS) return 13;
    for (size_t i = 0; i < count; i++) {
        if (rows[i] == 0 || rows[i] > rows_of(shape)) return 14;
        for (size_t j = 0; j < i; j++) if (rows[j] == rows[i]) return 14;
    }
    return 0;
}

/* Without a named row all bits that are mended lie outside. */
static uint32_t visit_plainly(uint32_t *image, size_t words, uint32_t shape, uint32_t s, uint32_t g, uint32_t block, uint32_t *verdict)
{
    uint32_t number = foldgrebe_visit(image, words, shape, s, g, block, verdict);
    if (verdict[FOLDGREBE_VERDICT_NUMBER] == FOLDGREBE_MENDED)
        verdict[FOLDGREBE_AROUND_OUTSIDE] = verdict[FOLDGREBE_VERDICT_COUNT], verdict[FOLDGREBE_AROUND_INSIDE] = 0;
    return number;
}

/* Apart, so that a visit without named rows does not pay for its room. */
static __attribute__((noinline)) uint32_t visit_named(uint32_t *image, size_t words, uint32_t shape, uint32_t s, uint32_t g, uint32_t block,
                                                      const uint32_t *rows, size_t count, uint32_t *verdict)
{
    uint32_t number = refuse_block(words, shape, s, g, block);
    outcome o = { 0, 0, 0 };
    if (number == 0) number = refuse_rows(rows, count, shape);
    if (number == 0) {
        uint32_t *at = image + first_row(shape, s, block);
        o = shape == 1 ? around_as(at, s, rows, count, 1) : around_as(at, s, rows, count, 2);
    }
    put_verdict(verdict, o);
    return number;
}

uint32_t foldgrebe_visit_around(uint32_t *image, size_t words, uint32_t shape, uint32_t s, uint32_t g, uint32_t block, const uint32_t *rows,
                                size_t count, uint32_t verdict[FOLDGREBE_VERDICT_WORDS])
{
    return count ? visit_named(image, words, shape, s, g, block, rows, count, verdict) : visit_plainly(image, words, shape, s, g, block, verdict);
}
#endif

uint32_t foldgrebe_ask(uint32_t record[FOLDGREBE_RECORD_WORDS], uint32_t block, uint32_t place[1])
{
    uint32_t number = refuse_layout(record[FOLDGREBE_RECORD_SHAPE], record[FOLDGREBE_RECORD_INTERLEAVE], record[FOLDGREBE_RECORD_GROUPS]);
    *place = 0;
    if (number == 0) number = refuse_record(record);
    if (number) return number;
    if (block >= record[FOLDGREBE_RECORD_INTERLEAVE] * record[FOLDGREBE_RECORD_GROUPS]) return 6;
    uint32_t waiting = record[FOLDGREBE_RECORD_WAITING];
    for (uint32_t i = 0; i < waiting; i++)
        if (record[FOLDGREBE_RECORD_PLACES + i] == block) { *place = i + 1; return 0; }
    if (waiting == FOLDGREBE_PLACES) return 8;
    record[FOLDGREBE_RECORD_PLACES + waiting] = block;
    record[FOLDGREBE_RECORD_WAITING] = *place = waiting + 1;
    return 0;
}

/* The block at place 1 leaves the list, and the others move up. */
static void serve(uint32_t *record)
{
    memmove(record + FOLDGREBE_RECORD_PLACES, record + FOLDGREBE_RECORD_PLACES + 1, (FOLDGREBE_PLACES - 1) * sizeof *record);
    record[FOLDGREBE_RECORD_PLACES + FOLDGREBE_PLACES - 1] = 0;
    record[FOLDGREBE_RECORD_WAITING]--;
}

uint32_t foldgrebe_turn(uint32_t record[FOLDGREBE_RECORD_WORDS], uint32_t *image, size_t words,
                        uint32_t report[FOLDGREBE_REPORT_WORDS])
{
    uint32_t shape = record[FOLDGREBE_RECORD_SHAPE], s = record[FOLDGREBE_RECORD_INTERLEAVE], g = record[FOLDGREBE_RECORD_GROUPS];
    uint32_t number = refuse_image(words, shape, s, g);
    memset(report, 0, FOLDGREBE_REPORT_WORDS * sizeof *report);
    if (number == 0) number = refuse_record(record);
    if (number) return number;
    uint32_t block = record[FOLDGREBE_RECORD_NEXT];
    outcome o = visit(image + first_row(shape, s, block), s, shape);
    report[FOLDGREBE_REPORT_BLOCK] = block, put_verdict(report + FOLDGREBE_REPORT_VERDICT, o);
    record[FOLDGREBE_RECORD_NEXT] = block + 1 == s * g ? 0 : block + 1;
    if (record[FOLDGREBE_RECORD_WAITING] == 0) return 0;
    uint32_t asked = record[FOLDGREBE_RECORD_PLACES];
    o = visit(image + first_row(shape, s, asked), s, shape);
    report[FOLDGREBE_REPORT_ASK_BLOCK] = asked, put_verdict(report + FOLDGREBE_REPORT_ASK_VERDICT, o);
    serve(record);
    return 0;
}

/* A file's header: the version, the length field, which counts the bytes behind it, shape, s and G. */
enum { VERSION = 0, FIELD = 1, FIELD_END = 5, FILE_SHAPE = 5, FILE_INTERLEAVE = 6, FILE_GROUPS = 7, HEADER = 9, BYTES = 4, AT_ONCE = 8 };
enum { OLD_VERSION = 1, NEW_VERSION = 2 };

/* A word whose bytes in memory are w's, highest first. Of four byte stores a word gcc 12 makes no swap but long vector code. */
INLINE uint32_t highest_first(uint32_t w) { return __BYTE_ORDER__ == __ORDER_LITTLE_ENDIAN__ ? __builtin_bswap32(w) : w; }

INLINE void put_word(uint8_t *to, uint32_t w) { w = highest_first(w), memcpy(to, &w, BYTES); }

INLINE uint32_t word_at(const uint8_t *from)
{
    uint32_t w;
    memcpy(&w, from, BYTES);
    return highest_first(w);
}

INLINE uint32_t groups_at(const uint8_t *file) { return (uint32_t)file[FILE_GROUPS] << 8 | file[FILE_GROUPS + 1]; }

/* The words of an image are 16 or 72 a block, so eight at once come out even. */
static void put_words(uint8_t *restrict to, const uint32_t *restrict image, size_t words)
{
    for (size_t i = 0; i < words; i += AT_ONCE, image += AT_ONCE, to += BYTES * AT_ONCE) {
#pragma GCC unroll 8
        for (unsigned k = 0; k < AT_ONCE; k++) put_word(to + BYTES * k, image[k]);
    }
}

static void take_words(uint32_t *restrict image, const uint8_t *restrict from, size_t words)
{
    for (size_t i = 0; i < words; i += AT_ONCE, image += AT_ONCE, from += BYTES * AT_ONCE) {
#pragma GCC unroll 8
        for (unsigned k = 0; k < AT_ONCE; k++) image[k] = word_at(from + BYTES * k);
    }
}

/* Version 1 had no row complemented; apart, so that version 2 does not pay for it. */
static __attribute__((noinline)) void complement_rows(uint32_t *image, size_t words, uint32_t shape, uint32_t s)
{
    for (size_t at = 0; at < words; at += group_words(shape, s))
        for (size_t k = 0; k < complemented_words(s); k++) image[at + k] ^= ONES;
}

static uint32_t refuse_file(const uint8_t *file, size_t bytes)
{
    if (bytes > FOLDGREBE_FILE_BYTES) return 11;
    if (bytes < HEADER) return 10;
    if (file[VERSION] != OLD_VERSION && file[VERSION] != NEW_VERSION) return 9;
    if (word_at(file + FIELD) != bytes - FIELD_END) return 10;
    uint32_t shape = file[FILE_SHAPE], s = file[FILE_INTERLEAVE], g = groups_at(file), number = refuse_layout(shape, s, g);
    if (number) return number;
    return bytes - HEADER == (size_t)BYTES * rows_of(shape) * s * g ? 0 : 4;
}

/* The layout of a file that is not refused, or zeros. */
static uint32_t tell_layout(uint32_t number, const uint8_t *file, uint32_t *layout)
{
    layout[FOLDGREBE_LAYOUT_SHAPE] = number ? 0 : file[FILE_SHAPE];
    layout[FOLDGREBE_LAYOUT_INTERLEAVE] = number ? 0 : file[FILE_INTERLEAVE];
    layout[FOLDGREBE_LAYOUT_GROUPS] = number ? 0 : groups_at(file);
    return number;
}

uint32_t foldgrebe_file_write(const uint32_t *image, size_t words, uint32_t shape, uint32_t s, uint32_t g, uint8_t *file, size_t bytes,
                              uint32_t written[1])
{
    uint32_t number = refuse_image(words, shape, s, g);
    *written = 0;
    if (number) return number;
    size_t length = HEADER + BYTES * words;
    if (length > FOLDGREBE_FILE_BYTES) return 11;
    if (bytes < length) return 12;
    file[VERSION] = NEW_VERSION, put_word(file + FIELD, (uint32_t)(length - FIELD_END));
    file[FILE_SHAPE] = (uint8_t)shape, file[FILE_INTERLEAVE] = (uint8_t)s;
    file[FILE_GROUPS] = (uint8_t)(g >> 8), file[FILE_GROUPS + 1] = (uint8_t)g;
    put_words(file + HEADER, image, words);
    *written = (uint32_t)length;
    return 0;
}

uint32_t foldgrebe_file_layout(const uint8_t *file, size_t bytes, uint32_t layout[FOLDGREBE_LAYOUT_WORDS])
{
    return tell_layout(refuse_file(file, bytes), file, layout);
}

uint32_t foldgrebe_file_read(const uint8_t *file, size_t bytes, uint32_t *image, size_t words, uint32_t layout[FOLDGREBE_LAYOUT_WORDS])
{
    uint32_t number = refuse_file(file, bytes);
    if (number == 0 && words != (bytes - HEADER) / BYTES) number = 4;
    if (number == 0) take_words(image, file + HEADER, words);
    if (number == 0 && file[VERSION] == OLD_VERSION) complement_rows(image, words, file[FILE_SHAPE], file[FILE_INTERLEAVE]);
    return tell_layout(number, file, layout);
}
