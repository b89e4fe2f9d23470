/* The server's errand: an image comes home as a file, and goes back mended. It reads the file on standard input, visits every
   block, and writes the mended image's file to standard output; docs/C.md has the commands. A version 1 file goes back as
   version 2. On standard error it says the blocks that are not clean. A lost block goes back as it came. A file that is refused
   gives `refused N` there, and status 1. */
#include <stdio.h>
#include <stdlib.h>
#include "foldgrebe.h"

/* No file is longer than FOLDGREBE_FILE_BYTES; one byte more lets the library see that the input is. */
enum { MOST_BYTES = FOLDGREBE_FILE_BYTES, MOST_WORDS = MOST_BYTES / 4 };

static uint8_t file[MOST_BYTES + 1];
static uint32_t image[MOST_WORDS], layout[FOLDGREBE_LAYOUT_WORDS], shape, s, g;
static size_t words;

static void fail(const char *why) { fprintf(stderr, "hand_back: %s\n", why), exit(1); }

/* A call answers 0 or the number of its refusal. */
static void expect_accepted(uint32_t number)
{
    if (number == 0) return;
    fprintf(stderr, "refused %u\n", number);
    exit(1);
}

/* The layout comes first: it tells how many words to lend for the image. */
static void take_image(void)
{
    size_t bytes = fread(file, 1, sizeof file, stdin);
    if (ferror(stdin)) fail("cannot read");
    expect_accepted(foldgrebe_file_layout(file, bytes, layout));
    shape = layout[FOLDGREBE_LAYOUT_SHAPE], s = layout[FOLDGREBE_LAYOUT_INTERLEAVE], g = layout[FOLDGREBE_LAYOUT_GROUPS];
    words = (size_t)(shape == 1 ? 16 : 72) * s * g;
    expect_accepted(foldgrebe_file_read(file, bytes, image, words, layout));
}

/* A visit mends the block in the image, or leaves it as it is where it is lost. */
static void visit(uint32_t block)
{
    uint32_t verdict[FOLDGREBE_VERDICT_WORDS];
    expect_accepted(foldgrebe_visit(image, words, shape, s, g, block, verdict));
    if (verdict[FOLDGREBE_VERDICT_NUMBER] == FOLDGREBE_MENDED)
        fprintf(stderr, "block %u mended %u\n", block, verdict[FOLDGREBE_VERDICT_COUNT]);
    if (verdict[FOLDGREBE_VERDICT_NUMBER] == FOLDGREBE_LOST)
        fprintf(stderr, "block %u lost %u %u, stays as it is\n", block, verdict[FOLDGREBE_VERDICT_COUNT], verdict[FOLDGREBE_VERDICT_BEYOND]);
}

/* The file's own room is free again, and is long enough, for the image has as many words as it had. */
static void give_image(void)
{
    uint32_t written[1];
    expect_accepted(foldgrebe_file_write(image, words, shape, s, g, file, sizeof file, written));
    if (fwrite(file, 1, written[0], stdout) != written[0] || fflush(stdout) != 0) fail("cannot write");
}

int main(void)
{
    take_image();
    for (uint32_t block = 0; block < s * g; block++) visit(block);
    give_image();
    return 0;
}
