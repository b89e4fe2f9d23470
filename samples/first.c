/* A first program: it writes a block, flips a bit of it as heat would, has the patrol walk until the bit is mended, and
   reads the block back; then two bits of a lane, which lose it. docs/C.md has the two commands that build and run it; first.out is what it prints. */
#include <stdio.h>
#include <stdlib.h>
#include "foldgrebe.h"

/* Shape 1 has 11 data words in 16 rows. Two groups of two interleaved blocks: four blocks. */
enum { SHAPE = 1, ROWS = 16, DATA_WORDS = 11, INTERLEAVE = 2, GROUPS = 2, BLOCK = 2 };
enum { WORDS = ROWS * INTERLEAVE * GROUPS };

static uint32_t image[WORDS], record[FOLDGREBE_RECORD_WORDS];   /* the memory is ours: the library keeps none */
static const char *const said[] = { [FOLDGREBE_CLEAN] = "clean", [FOLDGREBE_MENDED] = "mended", [FOLDGREBE_LOST] = "lost" };

/* A call answers 0 or the number of its refusal. */
static void expect_accepted(const char *call, uint32_t number)
{
    if (number == 0) return;
    fprintf(stderr, "first: %s refused %u\n", call, number);
    exit(1);
}

static void write_block(void)
{
    uint32_t data[DATA_WORDS];
    for (uint32_t i = 0; i < DATA_WORDS; i++) data[i] = 100 + i;
    expect_accepted("write", foldgrebe_write(image, WORDS, SHAPE, INTERLEAVE, GROUPS, BLOCK, data, DATA_WORDS));
}

/* Row p of block b lies at index b / s * ROWS * s + (p - 1) * s + b % s. */
static void flip(size_t row)
{
    image[BLOCK / INTERLEAVE * ROWS * INTERLEAVE + (row - 1) * INTERLEAVE + BLOCK % INTERLEAVE] ^= 1u << 7;
}

static void flip_a_bit(void)
{
    flip(5);
    printf("flipped: row 5, lane 7 of block %u\n", BLOCK);
}

/* The verdict and its count; of lost both: lanes lost with even parity, lanes lost with an odd sum beyond the rows. */
static void print_verdict(const uint32_t verdict[FOLDGREBE_VERDICT_WORDS])
{
    printf("%s %u", said[verdict[FOLDGREBE_VERDICT_NUMBER]], verdict[FOLDGREBE_VERDICT_COUNT]);
    if (verdict[FOLDGREBE_VERDICT_NUMBER] == FOLDGREBE_LOST) printf(" %u", verdict[FOLDGREBE_VERDICT_BEYOND]);
}

/* One turn visits one block, so as many turns as there are blocks visit all. A real program turns at each tick of a clock. */
static void turn_while_clean(void)
{
    uint32_t report[FOLDGREBE_REPORT_WORDS];
    for (int turns = 0; turns < INTERLEAVE * GROUPS; turns++) {
        expect_accepted("turn", foldgrebe_turn(record, image, WORDS, report));
        printf("turn: block %u ", report[FOLDGREBE_REPORT_BLOCK]);
        print_verdict(report + FOLDGREBE_REPORT_VERDICT);
        printf("\n");
        if (report[FOLDGREBE_REPORT_VERDICT] != FOLDGREBE_CLEAN) return;
    }
}

/* Of a lost block nothing is copied. */
static void read_block(void)
{
    uint32_t buffer[DATA_WORDS], verdict[FOLDGREBE_VERDICT_WORDS];
    expect_accepted("read", foldgrebe_read(image, WORDS, SHAPE, INTERLEAVE, GROUPS, BLOCK, buffer, DATA_WORDS, verdict));
    printf("read: block %u ", BLOCK);
    print_verdict(verdict);
    printf(":");
    if (verdict[FOLDGREBE_VERDICT_NUMBER] != FOLDGREBE_LOST)
        for (uint32_t i = 0; i < DATA_WORDS; i++) printf(" %u", buffer[i]);
    printf("\n");
}

/* Two flips in one lane are one too many: the block is lost, and the read copies nothing. */
static void lose_block(void)
{
    flip(5), flip(6);
    printf("flipped: rows 5 and 6, lane 7 of block %u\n", BLOCK);
}

int main(void)
{
    expect_accepted("format", foldgrebe_format(image, WORDS, SHAPE, INTERLEAVE, GROUPS, record));
    write_block();
    flip_a_bit();
    turn_while_clean();
    read_block();
    lose_block();
    read_block();
    return 0;
}
