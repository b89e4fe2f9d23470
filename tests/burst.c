/* What a burst can do. A store is filled, neighbouring words are spoiled, and every block is visited once, in any order, or by
   N turns of the patrol. Up to s words, or 4 * s bytes from anywhere: every read straight after and on the way gives what was
   written, no visit says lost, and the image ends as it was. s + 1 words, or 4 * s + 1 bytes: a block is lost exactly if the
   first and the last of them are of rows of it and have a changed bit in common; what became of them is told. Only the library's
   answers are used, and where the rows lie.

   burst SEED ROUNDS   so many rounds on each shape and each s; exits 1 at the first wrong answer. */
#include <stdio.h>
#include <stdlib.h>
#include <string.h>
#include "foldgrebe.h"

enum { MOST_BLOCKS = 80, MOST_ROWS = 72, MOST_DATA = 64, MOST_S = 16, NONE = -1 };

static uint32_t shape, s, g, n, rows, data_words;                       /* the store's layout */
static uint32_t image[MOST_BLOCKS * MOST_ROWS], whole[MOST_BLOCKS * MOST_ROWS], spoiled[MOST_BLOCKS * MOST_ROWS];
static size_t words;
static uint32_t record[FOLDGREBE_RECORD_WORDS];
static uint32_t meant[MOST_BLOCKS][MOST_DATA];                          /* what was written */
static uint64_t word_bursts, byte_bursts, crossings, by_turns, long_lost, long_bytes_lost, long_apart, long_border;
static uint64_t random_state, seed;

static uint64_t random_number(void)
{
    uint64_t z = random_state += 0x9e3779b97f4a7c15u;
    z = (z ^ z >> 30) * 0xbf58476d1ce4e5b9u;
    z = (z ^ z >> 27) * 0x94d049bb133111ebu;
    return z ^ z >> 31;
}

static uint32_t below(uint32_t k) { return (uint32_t)((random_number() >> 16) % k); }

static void expect(int holds, const char *what, uint32_t block)
{
    if (holds) return;
    printf("burst: %s (seed %llu, shape %u, s %u, G %u, block %u)\n", what, (unsigned long long)seed, shape, s, g, block);
    exit(1);
}

static uint32_t ones(uint32_t x) { uint32_t c = 0; for (; x; x &= x - 1) c++; return c; }

static size_t index_of(uint32_t block, uint32_t row) { return (size_t)(block / s) * rows * s + (size_t)(row - 1) * s + block % s; }

/* The bits of a block that differ from what it held. */
static uint32_t bits_off(uint32_t block)
{
    uint32_t bits = 0;
    for (uint32_t row = 1; row <= rows; row++) bits += ones(image[index_of(block, row)] ^ whole[index_of(block, row)]);
    return bits;
}

static void fill_store(void)
{
    expect(foldgrebe_format(image, words, shape, s, g, record) == 0, "format refused", 0);
    for (uint32_t block = 0; block < n; block++) {
        for (uint32_t i = 0; i < data_words; i++) meant[block][i] = (uint32_t)random_number();
        expect(foldgrebe_write(image, words, shape, s, g, block, meant[block], data_words) == 0, "write refused", block);
    }
    memcpy(whole, image, sizeof whole);
}

/* Some bits of a word, or all of them, or one; never none. */
static uint32_t some_bits(void)
{
    uint32_t bits = (uint32_t)random_number();
    switch (below(4)) {
    case 0: return UINT32_MAX;
    case 1: return 1u << below(32);
    default: return bits ? bits : 1;
    }
}

/* Where so many words begin: anywhere, and as often across a group border, where there is one. */
static size_t some_start(size_t many)
{
    size_t group = (size_t)rows * s;
    if (g > 1 && many > 1 && below(2)) return group * (1 + below(g - 1)) - 1 - below((uint32_t)(many - 1));
    return below((uint32_t)(words - many + 1));
}

static void spoil_words(size_t many)
{
    size_t start = some_start(many), group = (size_t)rows * s;
    for (size_t i = start; i < start + many; i++) image[i] ^= some_bits();
    crossings += start / group != (start + many - 1) / group;
    word_bursts++;
}

/* Up to 4 * s bytes from anywhere. */
static void spoil_bytes(void)
{
    uint8_t *bytes = (uint8_t *)image;
    size_t many = below(2) ? 4 * s : 1 + below(4 * s), start = below((uint32_t)(4 * words));
    for (size_t i = start; i < start + many && i < 4 * words; i++) bytes[i] ^= (uint8_t)random_number();
    byte_bursts++;
}

static void expect_kept(uint32_t block, const uint32_t verdict[FOLDGREBE_VERDICT_WORDS], uint32_t bits)
{
    expect(verdict[FOLDGREBE_VERDICT_NUMBER] == (bits ? FOLDGREBE_MENDED : FOLDGREBE_CLEAN) && verdict[FOLDGREBE_VERDICT_COUNT] == bits &&
               verdict[FOLDGREBE_VERDICT_BEYOND] == 0, "wrong verdict or count", block);
}

/* A read gives what was written, and leaves the image. */
static void read_one(uint32_t block)
{
    uint32_t buffer[MOST_DATA], verdict[FOLDGREBE_VERDICT_WORDS];
    memcpy(spoiled, image, sizeof spoiled);
    expect(foldgrebe_read(image, words, shape, s, g, block, buffer, data_words, verdict) == 0, "read refused", block);
    expect_kept(block, verdict, bits_off(block));
    expect(memcmp(buffer, meant[block], data_words * sizeof *buffer) == 0, "read is not what was written", block);
    expect(memcmp(image, spoiled, sizeof image) == 0, "a read altered the image", block);
}

static void read_all(void)
{
    for (uint32_t block = 0; block < n; block++) read_one(block);
}

/* Nothing but the rows of one block has changed since the copy. */
static int others_kept(uint32_t block)
{
    for (uint32_t row = 1; row <= rows; row++) spoiled[index_of(block, row)] = image[index_of(block, row)];
    return memcmp(image, spoiled, sizeof image) == 0;
}

/* A block is visited; one that must be lost is, in these lanes, and no word changes. */
static void visit_one(uint32_t block, int lost, uint32_t lanes)
{
    uint32_t verdict[FOLDGREBE_VERDICT_WORDS], bits = bits_off(block);
    memcpy(spoiled, image, sizeof spoiled);
    expect(foldgrebe_visit(image, words, shape, s, g, block, verdict) == 0, "visit refused", block);
    if (!lost) {
        expect_kept(block, verdict, bits);
        expect(bits_off(block) == 0, "a visited block is not what it was", block);
        expect(others_kept(block), "a visit altered another block", block);
        return;
    }
    expect(verdict[FOLDGREBE_VERDICT_NUMBER] == FOLDGREBE_LOST && verdict[FOLDGREBE_VERDICT_COUNT] == ones(lanes) &&
               verdict[FOLDGREBE_VERDICT_BEYOND] == 0, "a block with two bits off in a lane is not lost", block);
    expect(memcmp(image, spoiled, sizeof image) == 0, "a lost block is altered", block);
}

/* Every block once in a random order, with some of them again on the way. LOST is the block that must be lost, in these lanes. */
static void visit_all(int lost, uint32_t lanes)
{
    uint32_t order[MOST_BLOCKS];
    for (uint32_t i = 0; i < n; i++) order[i] = i;
    for (uint32_t i = n; i-- > 1;) {
        uint32_t j = below(i + 1), other = order[i];
        order[i] = order[j], order[j] = other;
    }
    for (uint32_t i = 0; i < n; i++) {
        uint32_t again = order[below(i + 1)], other = below(n);
        if (below(4) == 0) visit_one(again, (int)again == lost, lanes);
        if (below(4) == 0 && (int)other != lost) read_one(other);
        visit_one(order[i], (int)order[i] == lost, lanes);
    }
}

/* One visit of a report: its block, and a verdict that counts what was off. */
static void expect_report(const uint32_t *report, uint32_t block, uint32_t bits)
{
    expect(report[FOLDGREBE_REPORT_BLOCK] == block, "a turn visits another block", block);
    expect_kept(block, report + FOLDGREBE_REPORT_VERDICT, bits);
}

/* N turns, with an ask and a read now and then. */
static void turn_all(void)
{
    for (uint32_t turns = 0; turns < n; turns++) {
        uint32_t report[FOLDGREBE_REPORT_WORDS], place[1], asked = below(n), asks = below(3) == 0, next = record[FOLDGREBE_RECORD_NEXT];
        uint32_t bits = bits_off(next), more = asked == next ? 0 : bits_off(asked);
        if (asks) expect(foldgrebe_ask(record, asked, place) == 0 && *place == 1, "an ask is not first", asked);
        expect(foldgrebe_turn(record, image, words, report) == 0, "turn refused", next);
        expect_report(report, next, bits);
        if (asks) expect_report(report + FOLDGREBE_REPORT_ASK_BLOCK, asked, more);
        else expect(report[FOLDGREBE_REPORT_ASK_BLOCK] == 0 && report[FOLDGREBE_REPORT_ASK_VERDICT] == 0, "a turn serves an ask of nobody", next);
        if (below(4) == 0) read_one(below(n));
    }
    by_turns++;
}

static void expect_whole(void) { expect(memcmp(image, whole, sizeof image) == 0, "the image is not what it was", 0); }

static void burst_up_to_s(void)
{
    uint32_t report[FOLDGREBE_REPORT_WORDS];
    for (uint32_t turns = below(n); turns--;) expect(foldgrebe_turn(record, image, words, report) == 0, "turn refused", turns);
    if (below(3) == 0) spoil_bytes();
    else spoil_words(1 + below(s));
    read_all();
    if (below(2)) visit_all(NONE, 0);
    else turn_all();
    expect_whole();
    visit_all(NONE, 0);
    expect_whole();
}

/* The first and the last of s + 1 words are s apart: rows of one block, but where a group ends between them. */
static void expect_one_more(size_t start, uint64_t *losses)
{
    size_t last = start + s;
    int one_block = start / s % rows != rows - 1;
    uint32_t common = (image[start] ^ whole[start]) & (image[last] ^ whole[last]);
    uint32_t block = (uint32_t)(start / s / rows * s + start % s);
    if (one_block && common) {
        visit_all((int)block, common);
        for (uint32_t other = 0; other < n; other++) expect(other == block || bits_off(other) == 0, "a block beside the lost one is not mended", other);
        *losses += 1;
    } else {
        visit_all(NONE, 0);
        expect_whole();
        *(one_block ? &long_apart : &long_border) += 1;
    }
}

static void burst_one_more_word(void)
{
    size_t start = some_start(s + 1);
    for (size_t i = start; i <= start + s; i++) image[i] ^= some_bits();
    expect_one_more(start, &long_lost);
}

/* 4 * s + 1 bytes begin and end with the same byte of two words that are s apart. */
static void burst_one_more_byte(void)
{
    uint8_t *bytes = (uint8_t *)image;
    size_t start = below((uint32_t)(4 * (words - s)));
    for (size_t i = start; i <= start + 4 * s; i++) bytes[i] ^= (uint8_t)random_number();
    expect_one_more(start / 4, &long_bytes_lost);
}

static void one_store(void)
{
    rows = shape == 1 ? 16 : 72, data_words = shape == 1 ? 11 : 64;
    g = 1 + below(MOST_BLOCKS / MOST_S), n = s * g, words = (size_t)rows * n;
    memset(image, 0, sizeof image);
    fill_store();
    burst_up_to_s();
    if (below(2)) fill_store();
    burst_one_more_word();
    fill_store();
    burst_one_more_byte();
}

int main(int count, char **arguments)
{
    if (count != 3) return 2;
    seed = random_state = strtoull(arguments[1], 0, 10);
    for (unsigned long rounds = strtoul(arguments[2], 0, 10); rounds--;)
        for (shape = 1; shape <= 2; shape++)
            for (s = 1; s <= MOST_S; s++) one_store();
    printf("burst: %llu of up to s words, %llu of them across a group border, and %llu of up to 4s bytes mended whole, %llu of these by turns; one word more "
           "lost a block %llu times, one byte more %llu times; both, %llu times no bit was in common there, and %llu times a group ended between\n",
           (unsigned long long)word_bursts, (unsigned long long)crossings, (unsigned long long)byte_bursts, (unsigned long long)by_turns,
           (unsigned long long)long_lost, (unsigned long long)long_bytes_lost, (unsigned long long)long_apart, (unsigned long long)long_border);
    int seen = word_bursts && crossings && byte_bursts && by_turns && long_lost && long_bytes_lost && long_apart && long_border;
    if (!seen) printf("burst: some kind never came\n");
    return !seen;
}
