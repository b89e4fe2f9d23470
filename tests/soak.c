/* A store in use, under a steady rain of flips: any lane of any block, but at least N turns between two flips of one lane of
   one block. Every read must give what was last written (zeros where nothing was); every visit must count the flips that
   came since the last one; every ask must be served in its turn. Now and then the image goes through a file of either version
   and back, or a block is lost on purpose, lane by lane of either kind, and written again, or the chip is dead for a while and
   reads all zeros or all ones: every visit must then say lost 32 0 and alter nothing. Or, with FOLDGREBE_VISIT_AROUND, up to three
   rows of a block die, a test names just these, and a visit around them must bring the block back whole before the next read; so
   the promise about turns holds on. The store lives on. Only the library's answers are used, and where the rows lie.

   soak SEED TURNS   so many turns on each of twenty-two stores; exits 1 at the first wrong answer. */
#include <stdio.h>
#include <stdlib.h>
#include <string.h>
#include "foldgrebe.h"

enum { LANES = 32, MOST_BLOCKS = 600, MOST_ROWS = 72, MOST_DATA = 64, GUARDS = 64 };
enum { HEADER = 9, OLD_VERSION = 1, NEW_VERSION = 2, COMPLEMENTED_ROWS = 2 };
static const uint32_t GUARD = 0x6b8f21d3;

static uint32_t shape, s, g, n, rows, data_words;             /* the store's layout */
static uint32_t room[MOST_BLOCKS * MOST_ROWS + 2 * GUARDS], *const image = room + GUARDS;
static size_t words;
static uint32_t record[FOLDGREBE_RECORD_WORDS];

static uint32_t meant[MOST_BLOCKS][MOST_DATA];                /* what was last written */
static uint32_t flipped[MOST_BLOCKS];                         /* lanes flipped since the block was last visited or written */
static uint64_t last_flip[MOST_BLOCKS][LANES];                /* the turn before which a lane was last flipped, from 1; 0 never */
static uint32_t waiting[FOLDGREBE_PLACES], waits;             /* the asks, as their places told */
static uint8_t file_room[FOLDGREBE_FILE_BYTES + 2 * GUARDS];
static uint32_t kept[MOST_BLOCKS * MOST_ROWS];                /* the image while it is in a file alone, or before a visit that must not alter it */
static uint32_t dead[MOST_BLOCKS * MOST_ROWS];                /* the image while its chip, or a block of it, is dead */
static uint64_t turns, next, flips, reads, writes, asks, files, losses, deaths;
#ifdef FOLDGREBE_VISIT_AROUND
static uint64_t arounds, too_much;
#endif
static uint64_t random_state;
static uint64_t seed;

static uint64_t random_number(void)
{
    uint64_t z = random_state += 0x9e3779b97f4a7c15u;
    z = (z ^ z >> 30) * 0xbf58476d1ce4e5b9u;
    z = (z ^ z >> 27) * 0x94d049bb133111ebu;
    return z ^ z >> 31;
}

static uint32_t below(uint32_t k) { return (uint32_t)((random_number() >> 16) % k); }

static void expect(int holds, const char *what, uint32_t block)
{
    if (holds) return;
    printf("soak: %s (seed %llu, shape %u, s %u, G %u, block %u, after %llu turns)\n", what, (unsigned long long)seed,
           shape, s, g, block, (unsigned long long)turns);
    exit(1);
}

static uint32_t ones(uint32_t x) { uint32_t c = 0; for (; x; x &= x - 1) c++; return c; }

static uint32_t *word_of(uint32_t block, uint32_t row) { return image + (size_t)(block / s) * rows * s + (size_t)(row - 1) * s + block % s; }

static void rain(uint32_t drops)
{
    while (drops--) {
        uint32_t block = below(n), lane = below(LANES), row = below(rows) + 1;
        uint64_t *last = &last_flip[block][lane];
        if (*last && turns + 1 - *last < n) continue;
        *last = turns + 1;
        *word_of(block, row) ^= 1u << lane;
        flipped[block] |= 1u << lane;
        flips++;
    }
}

/* A verdict must be clean, or mended by as many bits as lanes were flipped; the count of lost lanes beside it 0. */
static void expect_verdict(uint32_t block, const uint32_t verdict[FOLDGREBE_VERDICT_WORDS])
{
    uint32_t says = flipped[block] ? FOLDGREBE_MENDED : FOLDGREBE_CLEAN, count = ones(flipped[block]);
    expect(verdict[FOLDGREBE_VERDICT_NUMBER] == says && verdict[FOLDGREBE_VERDICT_COUNT] == count && verdict[FOLDGREBE_VERDICT_BEYOND] == 0,
           "wrong verdict or count", block);
}

static void read_block(uint32_t block)
{
    uint32_t buffer[MOST_DATA], verdict[FOLDGREBE_VERDICT_WORDS];
    expect(foldgrebe_read(image, words, shape, s, g, block, buffer, data_words, verdict) == 0, "read refused", block);
    expect_verdict(block, verdict);
    expect(memcmp(buffer, meant[block], data_words * sizeof *buffer) == 0, "read is not what was written", block);
    reads++;
}

static void read_one(void) { read_block(below(n)); }

static uint32_t write_one(void)
{
    uint32_t block = below(n);
    for (uint32_t i = 0; i < data_words; i++) meant[block][i] = (uint32_t)random_number();
    expect(foldgrebe_write(image, words, shape, s, g, block, meant[block], data_words) == 0, "write refused", block);
    flipped[block] = 0;
    writes++;
    return block;
}

/* Two flips lose a lane even; three whose sum is 72 or more, in shape 2, lose it beyond the rows. */
static void lose_lanes(uint32_t block, uint32_t even, uint32_t beyond)
{
    uint32_t row = below(rows) + 1, other = row % rows + 1, high = below(7) + 65;
    *word_of(block, row) ^= even, *word_of(block, other) ^= even;
    if (beyond) *word_of(block, 8) ^= beyond, *word_of(block, 24) ^= beyond, *word_of(block, high) ^= beyond;
}

static void expect_lost(uint32_t block, const uint32_t verdict[FOLDGREBE_VERDICT_WORDS], uint32_t even, uint32_t beyond)
{
    expect(verdict[FOLDGREBE_VERDICT_NUMBER] == FOLDGREBE_LOST, "lost block not called lost", block);
    expect(verdict[FOLDGREBE_VERDICT_COUNT] == ones(even) && verdict[FOLDGREBE_VERDICT_BEYOND] == ones(beyond), "wrong kinds of lost", block);
}

/* A block that was just written is lost in lanes of either kind, seen to be by a read and a visit that alter nothing, and written again. */
static void lose_one(void)
{
    uint32_t block = write_one(), verdict[FOLDGREBE_VERDICT_WORDS], buffer[MOST_DATA], filled[MOST_DATA];
    uint32_t even = (uint32_t)random_number(), beyond = shape == 2 ? (uint32_t)random_number() & ~even : 0;
    if ((even | beyond) == 0) return;
    lose_lanes(block, even, beyond);
    memcpy(kept, image, words * sizeof *image);
    for (uint32_t i = 0; i < data_words; i++) buffer[i] = filled[i] = (uint32_t)random_number();
    expect(foldgrebe_read(image, words, shape, s, g, block, buffer, data_words, verdict) == 0, "read refused", block);
    expect_lost(block, verdict, even, beyond);
    expect(foldgrebe_visit(image, words, shape, s, g, block, verdict) == 0, "visit refused", block);
    expect_lost(block, verdict, even, beyond);
    expect(memcmp(buffer, filled, data_words * sizeof *buffer) == 0, "buffer of a lost read altered", block);
    expect(memcmp(kept, image, words * sizeof *image) == 0, "lost block altered", block);
    expect(foldgrebe_write(image, words, shape, s, g, block, meant[block], data_words) == 0, "write refused", block);
    losses++;
}

static void kill_block(uint32_t block, uint32_t reads_as)
{
    for (uint32_t row = 1; row <= rows; row++) *word_of(block, row) = reads_as;
}

/* Of a dead block a visit and a read say lost 32 0. */
static void expect_dead(uint32_t block)
{
    uint32_t verdict[FOLDGREBE_VERDICT_WORDS], buffer[MOST_DATA], filled[MOST_DATA];
    for (uint32_t i = 0; i < data_words; i++) buffer[i] = filled[i] = (uint32_t)random_number();
    expect(foldgrebe_visit(image, words, shape, s, g, block, verdict) == 0, "visit refused", block);
    expect_lost(block, verdict, UINT32_MAX, 0);
    expect(foldgrebe_read(image, words, shape, s, g, block, buffer, data_words, verdict) == 0, "read refused", block);
    expect_lost(block, verdict, UINT32_MAX, 0);
    expect(memcmp(buffer, filled, data_words * sizeof *buffer) == 0, "buffer of a lost read altered", block);
}

/* A turn over a dead chip says so of both its blocks; the record that goes on is the one from before. */
static void turn_dead(void)
{
    uint32_t turned[FOLDGREBE_RECORD_WORDS], report[FOLDGREBE_REPORT_WORDS];
    memcpy(turned, record, sizeof record);
    expect(foldgrebe_turn(turned, image, words, report) == 0, "turn refused", (uint32_t)next);
    expect_lost((uint32_t)next, report + FOLDGREBE_REPORT_VERDICT, UINT32_MAX, 0);
    if (waits) expect_lost(waiting[0], report + FOLDGREBE_REPORT_ASK_VERDICT, UINT32_MAX, 0);
}

/* One block or the whole chip is dead, is seen to be, and comes back as it was. */
static void die_one(void)
{
    uint32_t reads_as = below(2) ? UINT32_MAX : 0, first = below(n), end = first + 1;
    memcpy(kept, image, words * sizeof *image);
    if (below(2)) first = 0, end = n;
    for (uint32_t block = first; block < end; block++) kill_block(block, reads_as);
    memcpy(dead, image, words * sizeof *image);
    for (uint32_t block = first; block < end; block++) expect_dead(block);
    if (end - first == n) turn_dead();
    expect(memcmp(dead, image, words * sizeof *image) == 0, "dead image altered", first);
    memcpy(image, kept, words * sizeof *image);
    deaths++;
}

#ifdef FOLDGREBE_VISIT_AROUND
/* So many different rows, rows 1 and 2 and the last often among them. */
static void name_rows(uint32_t *named, uint32_t count)
{
    uint32_t known[] = { 1, 2, rows };
    for (uint32_t k = 0; k < count;) {
        uint32_t row = below(3) ? below(rows) + 1 : known[below(3)], other = 0;
        while (other < k && named[other] != row) other++;
        if (other == k) named[k++] = row;
    }
}

static int is_named(uint32_t row, const uint32_t *named, uint32_t count)
{
    while (count) if (named[--count] == row) return 1;
    return 0;
}

/* A row of a failed chip: all zeros, all ones, every bit wrong, or any bits. */
static uint32_t dead_word(uint32_t was)
{
    uint32_t reads_as[] = { 0, UINT32_MAX, ~was, (uint32_t)random_number() };
    return reads_as[below(4)];
}

/* The bits in which the block is not what it is in a whole image: inside the named rows, or outside them. */
static uint32_t bits_wrong(uint32_t block, const uint32_t *whole, const uint32_t *named, uint32_t count, int inside)
{
    uint32_t wrong = 0;
    for (uint32_t row = 1; row <= rows; row++)
        if (is_named(row, named, count) == inside) wrong += ones(*word_of(block, row) ^ whole[word_of(block, row) - image]);
    return wrong;
}

/* The named rows are all that died, and outside them a lane has one flip at most, so the block must come back whole. */
static void expect_around(uint32_t block, const uint32_t *whole, const uint32_t *named, uint32_t count)
{
    uint32_t inside = bits_wrong(block, whole, named, count, 1), outside = bits_wrong(block, whole, named, count, 0);
    uint32_t lent[FOLDGREBE_AROUND_ROWS], verdict[FOLDGREBE_VERDICT_WORDS];
    memcpy(lent, named, count * sizeof *lent);
    expect(foldgrebe_visit_around(image, words, shape, s, g, block, lent, count, verdict) == 0, "visit_around refused", block);
    expect(verdict[FOLDGREBE_VERDICT_NUMBER] == (inside + outside ? FOLDGREBE_MENDED : FOLDGREBE_CLEAN), "wrong verdict around dead rows", block);
    expect(verdict[FOLDGREBE_AROUND_INSIDE] == inside && verdict[FOLDGREBE_AROUND_OUTSIDE] == outside, "wrong count around dead rows", block);
    expect(memcmp(lent, named, count * sizeof *lent) == 0, "list of rows altered", block);
    expect(memcmp(whole, image, words * sizeof *image) == 0, "block not whole again, or another altered", block);
    flipped[block] = 0;
    arounds++;
}

/* Two rows are named, and a flip lies outside them: each lane that has one is lost, and nothing is altered. */
static void expect_too_much(uint32_t block, const uint32_t *whole, const uint32_t named[2])
{
    uint32_t outside = bits_wrong(block, whole, named, 2, 0), verdict[FOLDGREBE_VERDICT_WORDS];
    if (outside == 0) return;
    memcpy(dead, image, words * sizeof *image);
    expect(foldgrebe_visit_around(image, words, shape, s, g, block, named, 2, verdict) == 0, "visit_around refused", block);
    expect(verdict[FOLDGREBE_VERDICT_NUMBER] == FOLDGREBE_LOST, "block with a flip beside two dead rows not called lost", block);
    expect(verdict[FOLDGREBE_VERDICT_COUNT] == outside && verdict[FOLDGREBE_VERDICT_BEYOND] == 0, "wrong count of lost lanes", block);
    expect(memcmp(dead, image, words * sizeof *image) == 0, "lost block altered", block);
    too_much++;
}

/* Rows of a block die, with what flips it has: a visit of a copy tells the whole block. None or one dead row is mended beside the flips;
   two are too much then, and two or three are mended where the flips are mended first. */
static void go_around_one(void)
{
    uint32_t block = below(n), count = below(FOLDGREBE_AROUND_ROWS + 1), named[FOLDGREBE_AROUND_ROWS], verdict[FOLDGREBE_VERDICT_WORDS];
    memcpy(kept, image, words * sizeof *image);
    expect(foldgrebe_visit(kept, words, shape, s, g, block, verdict) == 0, "visit refused", block);
    expect_verdict(block, verdict);
    name_rows(named, count);
    for (uint32_t k = 0; k < count; k++) *word_of(block, named[k]) = dead_word(*word_of(block, named[k]));
    if (count == 2) expect_too_much(block, kept, named);
    for (uint32_t row = 1; count >= 2 && row <= rows; row++)
        if (!is_named(row, named, count)) *word_of(block, row) = kept[word_of(block, row) - image];
    expect_around(block, kept, named, count);
    read_block(block);
}
#endif

static uint32_t place_of(uint32_t block)
{
    for (uint32_t i = 0; i < waits; i++) if (waiting[i] == block) return i + 1;
    return 0;
}

static void ask_one(void)
{
    uint32_t block = below(n), place[1], known = place_of(block);
    uint32_t number = foldgrebe_ask(record, block, place);
    asks++;
    if (!known && waits == FOLDGREBE_PLACES) { expect(number == 8 && place[0] == 0, "ask beyond the last place not refused", block); return; }
    if (!known) waiting[waits++] = block;
    expect(number == 0 && place[0] == (known ? known : waits), "ask got a wrong place", block);
}

/* Where no ask was served, the report is zero from the ask's block on. */
static int served_none(const uint32_t report[FOLDGREBE_REPORT_WORDS])
{
    for (unsigned i = FOLDGREBE_REPORT_ASK_BLOCK; i < FOLDGREBE_REPORT_WORDS; i++) if (report[i]) return 0;
    return 1;
}

static void turn_one(void)
{
    uint32_t report[FOLDGREBE_REPORT_WORDS];
    expect(foldgrebe_turn(record, image, words, report) == 0, "turn refused", (uint32_t)next);
    uint32_t block = report[FOLDGREBE_REPORT_BLOCK], ask_block = report[FOLDGREBE_REPORT_ASK_BLOCK];
    expect(block == next, "turn visited another block than the next", block);
    expect_verdict(block, report + FOLDGREBE_REPORT_VERDICT);
    flipped[block] = 0;
    next = (next + 1) % n;
    turns++;
    if (waits == 0) { expect(served_none(report), "turn served an ask that nobody made", ask_block); return; }
    expect(ask_block == waiting[0], "turn served another block than place 1", ask_block);
    expect_verdict(ask_block, report + FOLDGREBE_REPORT_ASK_VERDICT);
    flipped[ask_block] = 0;
    memmove(waiting, waiting + 1, --waits * sizeof *waiting);
}

/* The bytes of the room that are not lent must stay; those behind a file, where the buffer is longer, too. */
static void expect_room(const uint8_t *file, size_t length)
{
    for (const uint8_t *byte = file_room; byte < file_room + sizeof file_room; byte++)
        if (byte < file || byte >= file + length) expect(*byte == (uint8_t)GUARD, "byte outside the file altered", 0);
}

/* A word of a file's body, counted from 0; its highest byte comes first. */
static uint32_t word_in(const uint8_t *file, size_t k)
{
    const uint8_t *b = file + HEADER + 4 * k;
    return (uint32_t)b[0] << 24 | (uint32_t)b[1] << 16 | (uint32_t)b[2] << 8 | b[3];
}

/* The file is of the new version and has the image's own words. */
static void expect_file(const uint8_t *file)
{
    expect(file[0] == NEW_VERSION, "file is not of the new version", 0);
    for (size_t k = 0; k < words; k++) expect(word_in(file, k) == image[k], "file has another word", 0);
}

/* The file as an old logger wrote it: version 1, and no row complemented. */
static void make_old(uint8_t *file)
{
    file[0] = OLD_VERSION;
    for (size_t k = 0; k < words; k++)
        if (k / s % rows < COMPLEMENTED_ROWS) for (int i = 0; i < 4; i++) file[HEADER + 4 * k + i] ^= 0xff;
}

/* The file must say the store's layout, and give back its words to an image that holds other ones. */
static void read_back(const uint8_t *file, size_t length)
{
    uint32_t told[2][FOLDGREBE_LAYOUT_WORDS] = { { 0 }, { 0 } };
    memcpy(kept, image, words * sizeof *image);
    for (size_t i = 0; i < words; i++) image[i] = (uint32_t)random_number();
    expect(foldgrebe_file_layout(file, length, told[0]) == 0, "file_layout refused", 0);
    expect(foldgrebe_file_read(file, length, image, words, told[1]) == 0, "file_read refused", 0);
    for (int k = 0; k < 2; k++)
        expect(told[k][FOLDGREBE_LAYOUT_SHAPE] == shape && told[k][FOLDGREBE_LAYOUT_INTERLEAVE] == s && told[k][FOLDGREBE_LAYOUT_GROUPS] == g,
               "file has another layout", 0);
    expect(memcmp(kept, image, words * sizeof *image) == 0, "file_read is not what was written", 0);
}

/* The new file gives the image, or the old one of the same store. */
static void read_either(uint8_t *file, size_t length)
{
    expect_file(file);
    if (below(2)) make_old(file);
    read_back(file, length);
}

/* A buffer that is one byte short is refused, and stays. */
static void expect_short(uint8_t *file, size_t length)
{
    uint32_t written = 1;
    expect(foldgrebe_file_write(image, words, shape, s, g, file, length - 1, &written) == 12 && written == 0, "short buffer not refused", 0);
    expect_room(file, 0);
}

/* The image goes into a file, at any byte of the room, and comes back, from version 1 as often; one that is too large is refused. */
static void file_one(void)
{
    uint8_t *file = file_room + GUARDS - below(16);
    size_t length = HEADER + 4 * words, lent = length + below(3) * 32;
    uint32_t written = 1;
    memset(file_room, (uint8_t)GUARD, sizeof file_room);
    if (length <= FOLDGREBE_FILE_BYTES) expect_short(file, length);
    uint32_t number = foldgrebe_file_write(image, words, shape, s, g, file, lent > FOLDGREBE_FILE_BYTES ? FOLDGREBE_FILE_BYTES : lent, &written);
    files++;
    if (length > FOLDGREBE_FILE_BYTES) { expect(number == 11 && written == 0, "file that is too long not refused", 0); length = 0; }
    else expect(number == 0 && written == length, "file_write refused, or of a wrong length", 0);
    expect_room(file, length);
    if (length) read_either(file, length);
}

static void fresh_store(void)
{
    n = s * g, rows = shape == 1 ? 16 : 72, data_words = shape == 1 ? 11 : 64, words = (size_t)rows * n;
    memset(meant, 0, sizeof meant), memset(flipped, 0, sizeof flipped), memset(last_flip, 0, sizeof last_flip);
    waits = 0, turns = next = 0;
    for (size_t i = 0; i < words + 2 * GUARDS; i++) room[i] = GUARD;
    expect(foldgrebe_format(image, words, shape, s, g, record) == 0, "format refused", 0);
    for (size_t k = 0; k < words; k++)
        expect(image[k] == (k / s % rows < COMPLEMENTED_ROWS ? UINT32_MAX : 0), "fresh image has another word", 0);
}

static void use_store(uint64_t upto)
{
    static const uint32_t heaviness[] = { 1, 4, 64, 1024 };
    uint32_t drops = heaviness[below(4)];
    while (turns < upto) {
        rain(below(drops + 1));
        switch (below(8)) {
        case 0: case 1: read_one(); break;
        case 2: write_one(); break;
        case 3: case 4: ask_one(); break;
        default: turn_one();
        }
        if (below(32) == 0) file_one();
        if (below(64) == 0) lose_one();
        if (below(256) == 0) die_one();
#ifdef FOLDGREBE_VISIT_AROUND
        if (below(32) == 0) go_around_one();
#endif
        if (turns % 512 == 0) drops = heaviness[below(4)];
    }
    for (size_t i = 0; i < GUARDS; i++) expect(room[i] == GUARD && image[words + i] == GUARD, "guard word altered", 0);
}

int main(int argc, char **argv)
{
    static const uint32_t layouts[][2] = {   /* s, G */
        { 1, 1 }, { 1, 2 }, { 1, 17 }, { 2, 3 }, { 3, 1 }, { 6, 7 }, { 16, 2 }, { 16, 20 }, { 5, 1 }, { 13, 3 },
        { 7, 73 },
    };
    if (argc != 3) { fprintf(stderr, "usage: soak SEED TURNS\n"); return 2; }
    random_state = seed = strtoull(argv[1], NULL, 10);
    for (unsigned k = 0; k < 2 * sizeof layouts / sizeof *layouts; k++) {
        shape = k % 2 + 1, s = layouts[k / 2][0], g = layouts[k / 2][1];
        fresh_store();
        use_store(strtoull(argv[2], NULL, 10));
    }
    printf("soak: seed %llu, %llu flips, %llu reads, %llu writes, %llu asks, %llu files, %llu losses, %llu deaths",
           (unsigned long long)seed, (unsigned long long)flips, (unsigned long long)reads, (unsigned long long)writes, (unsigned long long)asks,
           (unsigned long long)files, (unsigned long long)losses, (unsigned long long)deaths);
#ifdef FOLDGREBE_VISIT_AROUND
    printf(", %llu visits around rows that mend and %llu that cannot,", (unsigned long long)arounds, (unsigned long long)too_much);
#endif
    printf(" as they should be\n");
    return 0;
}
