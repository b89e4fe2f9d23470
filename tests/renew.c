/* An old logger's store in a new logger: takes the version 1 file on standard input, gives the file of the same image, not yet mended,
   to standard output, and then patrols the image once. Prints to standard error, of each block, what its turn said, as the inspecting
   program does. Any refusal, or a version other than is meant, ends it with status 1. */
#include <stdio.h>
#include <stdlib.h>
#include "foldgrebe.h"

enum { OLD_VERSION = 1, MOST_WORDS = FOLDGREBE_FILE_BYTES / 4 };

static uint8_t file[FOLDGREBE_FILE_BYTES];
static uint32_t image[MOST_WORDS], record[FOLDGREBE_RECORD_WORDS], layout[FOLDGREBE_LAYOUT_WORDS], written[1];
static uint32_t shape, s, g;
static size_t words;

static void expect(int holds, const char *what) { if (!holds) fprintf(stderr, "renew: %s\n", what), exit(1); }

static void take_old(void)
{
    size_t bytes = fread(file, 1, sizeof file, stdin);
    expect(bytes > 0 && file[0] == OLD_VERSION, "no version 1 file");
    expect(foldgrebe_file_layout(file, bytes, layout) == 0, "file_layout refused");
    shape = layout[FOLDGREBE_LAYOUT_SHAPE], s = layout[FOLDGREBE_LAYOUT_INTERLEAVE], g = layout[FOLDGREBE_LAYOUT_GROUPS];
    words = (size_t)(shape == 1 ? 16 : 72) * s * g;
    expect(foldgrebe_file_read(file, bytes, image, words, layout) == 0, "file_read refused");
}

static void give_new(void)
{
    expect(foldgrebe_file_write(image, words, shape, s, g, file, sizeof file, written) == 0, "file_write refused");
    expect(fwrite(file, 1, written[0], stdout) == written[0] && fflush(stdout) == 0, "cannot write");
}

static void print_turn(const uint32_t report[FOLDGREBE_REPORT_WORDS])
{
    static const char *const said[] = { "none", "clean", "mended", "lost" };
    uint32_t verdict = report[FOLDGREBE_REPORT_VERDICT];
    fprintf(stderr, "block %u %s %u", report[FOLDGREBE_REPORT_BLOCK], said[verdict & 3], report[FOLDGREBE_REPORT_COUNT]);
    if (verdict == FOLDGREBE_LOST) fprintf(stderr, " %u", report[FOLDGREBE_REPORT_BEYOND]);
    fprintf(stderr, "\n");
}

/* The record is not in a file; this is the one that format gives. */
static void patrol(void)
{
    uint32_t report[FOLDGREBE_REPORT_WORDS];
    record[FOLDGREBE_RECORD_SHAPE] = shape, record[FOLDGREBE_RECORD_INTERLEAVE] = s, record[FOLDGREBE_RECORD_GROUPS] = g;
    for (uint32_t turns = 0; turns < s * g; turns++) {
        expect(foldgrebe_turn(record, image, words, report) == 0, "turn refused");
        print_turn(report);
    }
}

int main(void)
{
    take_old();
    give_new();
    patrol();
    return 0;
}
