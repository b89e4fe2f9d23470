/* The calls of include/foldgrebe.h, one of each kind in a counted region. Prints `case TAG SHAPE S CALL`; the counts come
   from the plugin. Every answer is compared, so that nothing is measured that does not work. */
#include <stdio.h>
#include <stdlib.h>
#include <string.h>
#include "foldgrebe.h"
#include "mark.h"

enum { GROUPS = 3, MOST_WORDS = 72 * 16 * GROUPS, MOST_DATA = 64 };

static uint32_t image[MOST_WORDS], data[MOST_DATA], buffer[MOST_DATA], record[FOLDGREBE_RECORD_WORDS];
static uint32_t verdict[FOLDGREBE_VERDICT_WORDS], report[FOLDGREBE_REPORT_WORDS], place[1];
static uint32_t shape, s, block, rows, data_words;
static size_t words;
static long tag;

static void expect(int holds, const char *what)
{
    if (holds) return;
    fprintf(stderr, "bench: shape %u, s %u: %s is wrong\n", shape, s, what);
    exit(1);
}

static long next_case(const char *call)
{
    printf("case %ld %u %u %s\n", ++tag, shape, s, call);
    return tag;
}

static void flip(uint32_t row, uint32_t lane)
{
    image[(size_t)(block / s) * rows * s + (size_t)(row - 1) * s + block % s] ^= 1u << lane;
}

static void measure_write(void)
{
    uint32_t number;
    COUNTED(next_case("write"), number = foldgrebe_write(image, words, shape, s, GROUPS, block, data, data_words));
    expect(number == 0, "write");
}

static void measure_visit(const char *call, uint32_t says, uint32_t count, uint32_t beyond)
{
    uint32_t number;
    COUNTED(next_case(call), number = foldgrebe_visit(image, words, shape, s, GROUPS, block, verdict));
    expect(number == 0 && verdict[FOLDGREBE_VERDICT_NUMBER] == says, call);
    expect(verdict[FOLDGREBE_VERDICT_COUNT] == count && verdict[FOLDGREBE_VERDICT_BEYOND] == beyond, call);
}

/* Lane 9 even with a sum, lane 4 of shape 2 odd with a sum of 72. */
static void lose(void) { flip(3, 9), flip(5, 9); }
static void lose_beyond(void) { flip(1, 4), flip(9, 4), flip(64, 4); }

static void measure_visits(void)
{
    measure_visit("visit-clean", FOLDGREBE_CLEAN, 0, 0);
    flip(7, 11);
    measure_visit("visit-one-flip", FOLDGREBE_MENDED, 1, 0);
    for (uint32_t lane = 0; lane < 32; lane++) flip(lane % rows + 1, lane);
    measure_visit("visit-32-flips", FOLDGREBE_MENDED, 32, 0);
    lose();
    measure_visit("visit-lost", FOLDGREBE_LOST, 1, 0);
    if (shape == 2) {
        lose_beyond();
        measure_visit("visit-lost-both", FOLDGREBE_LOST, 1, 1);
        lose();
        measure_visit("visit-lost-beyond", FOLDGREBE_LOST, 0, 1);
        lose_beyond();
    } else lose();
}

#ifdef FOLDGREBE_VISIT_AROUND
/* Data rows of both shapes. */
static const uint32_t dead_rows[FOLDGREBE_AROUND_ROWS] = { 6, 11, 13 };

/* Every bit of the first so many of them is wrong. */
static void invert_rows(uint32_t count)
{
    for (uint32_t k = 0; k < count; k++) for (uint32_t lane = 0; lane < 32; lane++) flip(dead_rows[k], lane);
}

static void measure_around(const char *call, uint32_t count, uint32_t says, uint32_t first, uint32_t second)
{
    uint32_t number;
    COUNTED(next_case(call), number = foldgrebe_visit_around(image, words, shape, s, GROUPS, block, dead_rows, count, verdict));
    expect(number == 0 && verdict[FOLDGREBE_VERDICT_NUMBER] == says, call);
    expect(verdict[FOLDGREBE_AROUND_INSIDE] == first && verdict[FOLDGREBE_AROUND_OUTSIDE] == second, call);
}

/* The block is valid before, and after. */
static void measure_arounds(void)
{
    measure_around("around-none-clean", 0, FOLDGREBE_CLEAN, 0, 0);
    flip(7, 11);
    measure_around("around-none", 0, FOLDGREBE_MENDED, 0, 1);
    measure_around("around-clean", 3, FOLDGREBE_CLEAN, 0, 0);
    invert_rows(1);
    measure_around("around-one", 1, FOLDGREBE_MENDED, 32, 0);
    invert_rows(1), flip(7, 11);
    measure_around("around-one-flip", 1, FOLDGREBE_MENDED, 32, 1);
    invert_rows(2);
    measure_around("around-two", 2, FOLDGREBE_MENDED, 64, 0);
    invert_rows(3);
    measure_around("around-three", 3, FOLDGREBE_MENDED, 96, 0);
    flip(7, 11);
    measure_around("around-lost", 2, FOLDGREBE_LOST, 1, 0);
    flip(7, 11);
}
#endif

static void measure_read(const char *call, uint32_t says)
{
    uint32_t number;
    COUNTED(next_case(call), number = foldgrebe_read(image, words, shape, s, GROUPS, block, buffer, data_words, verdict));
    expect(number == 0 && verdict[FOLDGREBE_VERDICT_NUMBER] == says, call);
    expect(memcmp(buffer, data, data_words * sizeof *data) == 0, call);
}

static void measure_reads(void)
{
    measure_read("read-clean", FOLDGREBE_CLEAN);
    flip(7, 11);
    measure_read("read-one-flip", FOLDGREBE_MENDED);
    flip(7, 11);
    for (uint32_t lane = 0; lane < 32; lane++) flip(lane % rows + 1, lane);
    measure_read("read-32-flips", FOLDGREBE_MENDED);
    for (uint32_t lane = 0; lane < 32; lane++) flip(lane % rows + 1, lane);
    lose();
    measure_read("read-lost", FOLDGREBE_LOST);
    lose();
}

static void measure_turn(const char *call, uint32_t asks)
{
    uint32_t number;
    COUNTED(next_case(call), number = foldgrebe_turn(record, image, words, report));
    expect(number == 0 && report[FOLDGREBE_REPORT_VERDICT] == FOLDGREBE_CLEAN, call);
    expect(report[FOLDGREBE_REPORT_ASK_VERDICT] == (asks ? FOLDGREBE_CLEAN : 0), call);
}

static void measure_turns(void)
{
    measure_turn("turn", 0);
    expect(foldgrebe_ask(record, block, place) == 0 && place[0] == 1, "ask");
    measure_turn("turn-with-ask", 1);
}

static void measure_store(uint32_t in_shape, uint32_t interleave)
{
    shape = in_shape, s = interleave, rows = shape == 1 ? 16 : 72, data_words = shape == 1 ? 11 : 64;
    words = (size_t)rows * s * GROUPS, block = s + s / 2;
    for (uint32_t i = 0; i < data_words; i++) data[i] = (i + 1) * 0x9e3779b1u;
    expect(foldgrebe_format(image, words, shape, s, GROUPS, record) == 0, "format");
    measure_write();
    measure_visits();
#ifdef FOLDGREBE_VISIT_AROUND
    measure_arounds();
#endif
    measure_reads();
    measure_turns();
}

/* The floor: no code can look at a block with less than one pass over its words. */
static __attribute__((noinline)) uint32_t xor_pass(const uint32_t *row, uint32_t count)
{
    uint32_t x = 0;
    for (uint32_t i = 0; i < count; i++) x ^= row[i];
    return x;
}

static void measure_floor(void)
{
    static volatile uint32_t kept;
    s = 1;
    for (shape = 1; shape <= 2; shape++) COUNTED(next_case("xor-pass"), kept = xor_pass(image, shape == 1 ? 16 : 72));
    (void)kept;
}

int main(void)
{
    static const uint32_t interleaves[] = { 1, 6, 16 };
    COUNTED(0, (void)0);
    for (uint32_t k = 0; k < 6; k++) measure_store(k / 3 + 1, interleaves[k % 3]);
    measure_floor();
    return 0;
}
