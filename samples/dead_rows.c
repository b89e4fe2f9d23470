/* A failed chip takes three rows of a block. An ordinary visit can only say that the block is lost; a self-test knows the rows, and a visit
   around them brings the block back. A flip beside two dead rows is one too many. docs/C.md tells of it; dead_rows.out is what it prints. */
#include <stdio.h>
#include <stdlib.h>
#include "foldgrebe.h"

/* Shape 1 has 11 data words in 16 rows. Two groups of two interleaved blocks: four blocks. */
enum { SHAPE = 1, ROWS = 16, DATA_WORDS = 11, INTERLEAVE = 2, GROUPS = 2, BLOCK = 2 };
enum { WORDS = ROWS * INTERLEAVE * GROUPS };

static uint32_t image[WORDS], record[FOLDGREBE_RECORD_WORDS], verdict[FOLDGREBE_VERDICT_WORDS];
static const char *const said[] = { [FOLDGREBE_CLEAN] = "clean", [FOLDGREBE_MENDED] = "mended", [FOLDGREBE_LOST] = "lost" };
static const uint32_t dead[FOLDGREBE_AROUND_ROWS] = { 3, 9, 16 };   /* what the self-test told */

static void expect_accepted(const char *call, uint32_t number)
{
    if (number == 0) return;
    fprintf(stderr, "dead_rows: %s refused %u\n", call, number);
    exit(1);
}

/* Row p of block b lies at index b / s * ROWS * s + (p - 1) * s + b % s. */
static uint32_t *word_of(uint32_t row) { return image + BLOCK / INTERLEAVE * ROWS * INTERLEAVE + (row - 1) * INTERLEAVE + BLOCK % INTERLEAVE; }

static void write_block(void)
{
    uint32_t data[DATA_WORDS];
    for (uint32_t i = 0; i < DATA_WORDS; i++) data[i] = 100 + i;
    expect_accepted("write", foldgrebe_write(image, WORDS, SHAPE, INTERLEAVE, GROUPS, BLOCK, data, DATA_WORDS));
    printf("wrote: block %u\n", BLOCK);
}

/* The rows of a failed chip read all ones. */
static void overwrite(uint32_t count)
{
    printf("dead: rows");
    for (uint32_t k = 0; k < count; k++) *word_of(dead[k]) = UINT32_MAX, printf(" %u", dead[k]);
    printf(" of block %u\n", BLOCK);
}

static void print_verdict(void)
{
    printf("%s %u %u", said[verdict[FOLDGREBE_VERDICT_NUMBER]], verdict[FOLDGREBE_VERDICT_COUNT], verdict[FOLDGREBE_VERDICT_BEYOND]);
}

/* An ordinary visit: of lost, the lanes lost with even parity, and those with an odd sum beyond the rows. */
static void visit(void)
{
    expect_accepted("visit", foldgrebe_visit(image, WORDS, SHAPE, INTERLEAVE, GROUPS, BLOCK, verdict));
    printf("visit: block %u ", BLOCK), print_verdict(), printf("\n");
}

/* Around the dead rows: of mended, the bits changed inside them, and outside; of lost, the lanes, and 0. */
static void visit_around(uint32_t count)
{
    expect_accepted("visit_around", foldgrebe_visit_around(image, WORDS, SHAPE, INTERLEAVE, GROUPS, BLOCK, dead, count, verdict));
    printf("visit around %u rows: block %u ", count, BLOCK), print_verdict(), printf("\n");
}

static void read_block(void)
{
    uint32_t buffer[DATA_WORDS];
    expect_accepted("read", foldgrebe_read(image, WORDS, SHAPE, INTERLEAVE, GROUPS, BLOCK, buffer, DATA_WORDS, verdict));
    printf("read: block %u ", BLOCK), print_verdict(), printf(":");
    for (uint32_t i = 0; i < DATA_WORDS; i++) printf(" %u", buffer[i]);
    printf("\n");
}

static void flip_a_bit(void)
{
    *word_of(5) ^= 1u << 7;
    printf("flipped: row 5, lane 7 of block %u\n", BLOCK);
}

int main(void)
{
    expect_accepted("format", foldgrebe_format(image, WORDS, SHAPE, INTERLEAVE, GROUPS, record));
    write_block();
    overwrite(3);
    visit();
    visit_around(3);
    read_block();
    overwrite(2);
    flip_a_bit();
    visit_around(2);
    return 0;
}
