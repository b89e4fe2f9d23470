/* The calls of include/foldgrebe.h on a whole image, in a counted region: format, file_write, and file_read of a file of either version.
   The largest image that a file takes, and a small one, of each shape at s = 1. Prints `case TAG SHAPE S CALL` as bench.c does. */
#include <stdio.h>
#include <stdlib.h>
#include <string.h>
#include "foldgrebe.h"
#include "mark.h"

/* The most blocks that a file takes are 511 of shape 1 or 113 of shape 2. */
enum { MOST_WORDS = FOLDGREBE_FILE_BYTES / 4, MOST_BLOCKS_1 = 511, MOST_BLOCKS_2 = 113, FEW_BLOCKS = 3, MOST_DATA = 64 };
enum { HEADER = 9, OLD_VERSION = 1 };

static uint8_t file[FOLDGREBE_FILE_BYTES];
static uint32_t image[MOST_WORDS], taken[MOST_WORDS], record[FOLDGREBE_RECORD_WORDS], layout[FOLDGREBE_LAYOUT_WORDS], written[1];
static uint32_t shape, blocks, rows, data_words;
static size_t words;
static long tag;

static void expect(int holds, const char *what)
{
    if (holds) return;
    fprintf(stderr, "files: shape %u: %s is wrong\n", shape, what);
    exit(1);
}

static long next_case(const char *call)
{
    printf("case %ld %u 1 %s\n", ++tag, shape, call);
    return tag;
}

/* The name of a case: the call, and `-small` behind it where the image is. */
static const char *named(const char *call)
{
    static char name[64];
    snprintf(name, sizeof name, "%s%s", call, blocks == FEW_BLOCKS ? "-small" : "");
    return name;
}

static void measure_format(void)
{
    uint32_t number;
    memset(image, 0x5a, sizeof image);
    COUNTED(next_case(named("format")), number = foldgrebe_format(image, words, shape, 1, blocks, record));
    expect(number == 0 && image[0] == UINT32_MAX && image[1] == UINT32_MAX && image[2] == 0 && image[words - 1] == 0, "format");
}

/* Every block holds other data, and is valid. */
static void fill(void)
{
    uint32_t data[MOST_DATA];
    for (uint32_t block = 0; block < blocks; block++) {
        for (uint32_t i = 0; i < data_words; i++) data[i] = (block * data_words + i + 1) * 0x9e3779b1u;
        expect(foldgrebe_write(image, words, shape, 1, blocks, block, data, data_words) == 0, "write");
    }
}

static void measure_write(void)
{
    uint32_t number;
    COUNTED(next_case(named("file-write")), number = foldgrebe_file_write(image, words, shape, 1, blocks, file, sizeof file, written));
    expect(number == 0 && written[0] == HEADER + 4 * words && file[HEADER] == image[0] >> 24, "file-write");
    expect(file[written[0] - 1] == (image[words - 1] & 255), "file-write");
}

/* The same store as a version 1 file: no row is complemented. At s = 1 rows 1 and 2 of a block are its first words. */
static void make_old(void)
{
    file[0] = OLD_VERSION;
    for (size_t k = 0; k < words; k++)
        if (k % rows < 2) for (int i = 0; i < 4; i++) file[HEADER + 4 * k + i] ^= 0xff;
}

/* The file is of the image that was written, so that every word of it is compared. */
static void measure_read(const char *call)
{
    uint32_t number;
    memset(taken, 0, sizeof taken);
    COUNTED(next_case(named(call)), number = foldgrebe_file_read(file, written[0], taken, words, layout));
    expect(number == 0 && layout[FOLDGREBE_LAYOUT_SHAPE] == shape && layout[FOLDGREBE_LAYOUT_GROUPS] == blocks, call);
    expect(memcmp(taken, image, words * sizeof *image) == 0, call);
}

static void measure_image(uint32_t of_blocks)
{
    blocks = of_blocks, rows = shape == 1 ? 16 : 72, data_words = shape == 1 ? 11 : 64, words = (size_t)rows * blocks;
    measure_format();
    fill();
    measure_write();
    measure_read("file-read");
    make_old();
    measure_read("file-read-version-1");
}

int main(void)
{
    COUNTED(0, (void)0);
    for (shape = 1; shape <= 2; shape++) {
        measure_image(shape == 1 ? MOST_BLOCKS_1 : MOST_BLOCKS_2);
        measure_image(FEW_BLOCKS);
    }
    return 0;
}
