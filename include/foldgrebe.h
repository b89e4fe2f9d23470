/* Foldgrebe: keeps a memory image of 32-bit words in blocks that mend themselves.

   A block holds 11 data words in 16 rows (shape 1) or 64 data words in 72 rows (shape 2); a row is one word. Bit i of
   every row is lane i. One flipped bit in each lane is mended; two in one lane are noticed, and the block is then lost,
   with the lanes of each of the two kinds of lost counted. The words of rows 1 and 2 are stored complemented, so that a dead
   chip shows: a block that reads all zeros, or all ones, is lost in 32 lanes, all with even parity. So memory that was only
   set to zero is no image: format it.
   An image has N = s * g blocks (s from 1 to 16, N at most 4096) and exactly rows * N words. Blocks are numbered from 0.
   s neighbouring words belong to s different blocks. So where every block is valid and any bits of up to s neighbouring words
   are then spoiled, no block is lost, and visits of all of them, or N turns, leave the image as it was, if nothing is written
   or flipped meanwhile.

   Use: format once, write and read blocks by number, and call turn again and again, which patrols the image: each turn
   visits (checks and mends) the next block and one block that was asked for. If at least N turns lie between two flips
   in the same lane of the same block, every read gives what was last written; so long as the record is handed from call
   to call, every call that is accepted lends the whole image and names its layout, no later format and no file_read into
   the image is accepted, a format that is refused was lent other words than this record, and nothing but single flips
   changes the image otherwise.

   Every call answers a number: 0 where it is accepted, or the first refusal, in the order given with the call:
     1  shape is not 1 or 2
     2  s is 0 or above 16
     3  g is 0, or there are above 4096 blocks
     4  words is not rows * s * g, or there are not 4 * rows * s * g bytes after a file's header
     5  the record is broken
     6  there is no block of that number
     7  the data or the buffer is not of 11 or 64 words, as the shape wants
     8  16 other blocks wait already
     9  the version of the file is neither 1 nor 2
    10  the file has fewer than 9 bytes, or its length field is not the number of bytes after byte 4
    11  the file has, or would have, above 32768 bytes
    12  the buffer that is lent for a file is shorter than the file
   A refused call sets verdict, place, report, written and layout to zeros and alters nothing else; only a refused format
   also gives a record of zeros.

   A file is an image as bytes, to be sent or kept: byte 0 is the version, 2; bytes 1 to 4 say how many bytes come after
   byte 4; then come one byte for the shape, one for s, two for g, and from byte 9 on the words of the image. All numbers
   have their highest byte first. The record is not in it. A file of version 1, from before rows 1 and 2 were complemented, is
   read too: these rows of each block are complemented on the way in. None is written.

   What the caller owes:
   - each pointer points at as many words, or for a file bytes, as its count or its array says, and is not NULL, also
     where the count is 0; one to words is aligned for uint32_t, one to bytes need not be;
   - the parts of memory lent to one call, file and image too, do not overlap, and nothing else uses them until the call is
     back;
   - nothing else: any numbers may be passed, and any words or bytes may stand in image, record and file.
   The library keeps nothing between calls, allocates nothing, and may be used from several threads on separate images. */
#ifndef FOLDGREBE_H
#define FOLDGREBE_H

#include <stddef.h>
#include <stdint.h>

#ifdef __cplusplus
extern "C" {
#endif

/* A verdict's words, which a visit and a read give: the verdict; bits changed, or lanes lost with even parity; 0, or lanes
   lost with an odd sum beyond the rows. */
#define FOLDGREBE_VERDICT_NUMBER 0
#define FOLDGREBE_VERDICT_COUNT  1
#define FOLDGREBE_VERDICT_BEYOND 2
#define FOLDGREBE_VERDICT_WORDS  3

/* A verdict's number. 0 is no verdict: the call was refused, or a turn had no ask to serve; both counts are then 0. */
#define FOLDGREBE_CLEAN  1   /* count and beyond 0 */
#define FOLDGREBE_MENDED 2   /* count: the bits changed, from 1 to 32; beyond 0 */
#define FOLDGREBE_LOST   3   /* count: the lanes lost with even parity; beyond: those with an odd sum beyond the rows, 0 in shape 1; together 1 to 32 */
/* To a workshop: lanes lost with even parity are even damage, so reboot; lanes lost beyond the rows are odd damage, so swap the memory.
   Where every block says 32 and 0, again after a reboot, the chip may be dead: no reboot helps then. */

/* A turn's report: the patrol's block and its verdict's words, then the block asked for and its verdict's words. */
#define FOLDGREBE_REPORT_BLOCK       0
#define FOLDGREBE_REPORT_VERDICT     1   /* where that block's verdict begins, so also the place of its number */
#define FOLDGREBE_REPORT_COUNT       (FOLDGREBE_REPORT_VERDICT + FOLDGREBE_VERDICT_COUNT)
#define FOLDGREBE_REPORT_BEYOND      (FOLDGREBE_REPORT_VERDICT + FOLDGREBE_VERDICT_BEYOND)
#define FOLDGREBE_REPORT_ASK_BLOCK   (FOLDGREBE_REPORT_VERDICT + FOLDGREBE_VERDICT_WORDS)
#define FOLDGREBE_REPORT_ASK_VERDICT (FOLDGREBE_REPORT_ASK_BLOCK + 1)
#define FOLDGREBE_REPORT_ASK_COUNT   (FOLDGREBE_REPORT_ASK_VERDICT + FOLDGREBE_VERDICT_COUNT)
#define FOLDGREBE_REPORT_ASK_BEYOND  (FOLDGREBE_REPORT_ASK_VERDICT + FOLDGREBE_VERDICT_BEYOND)
#define FOLDGREBE_REPORT_WORDS       (FOLDGREBE_REPORT_ASK_VERDICT + FOLDGREBE_VERDICT_WORDS)

/* The patrol's record, which format makes and ask and turn move on; the caller keeps it and need not look into it. */
#define FOLDGREBE_RECORD_SHAPE      0
#define FOLDGREBE_RECORD_INTERLEAVE 1    /* s */
#define FOLDGREBE_RECORD_GROUPS     2    /* g */
#define FOLDGREBE_RECORD_NEXT       3    /* the block that the next turn visits */
#define FOLDGREBE_RECORD_WAITING    4    /* how many blocks wait */
#define FOLDGREBE_RECORD_PLACES     5    /* the block at place 1; the other places follow, those not used being 0 */
#define FOLDGREBE_PLACES            16   /* how many blocks can wait */
#define FOLDGREBE_RECORD_WORDS      (FOLDGREBE_RECORD_PLACES + FOLDGREBE_PLACES)

/* What a file says of its image. */
#define FOLDGREBE_LAYOUT_SHAPE      0
#define FOLDGREBE_LAYOUT_INTERLEAVE 1    /* s */
#define FOLDGREBE_LAYOUT_GROUPS     2    /* g */
#define FOLDGREBE_LAYOUT_WORDS      3

/* No file is longer, so a buffer of so many bytes always does. */
#define FOLDGREBE_FILE_BYTES 32768

/* Stores zero data in every block, which is FFFFFFFF hex in rows 1 and 2 and zero elsewhere, and gives a new record.
   Refuses 1, 2, 3, 4. Refused, it gives a record of zeros: lend it other words than those of a record that is in use, or
   that one is gone. */
uint32_t foldgrebe_format(uint32_t *image, size_t words, uint32_t shape, uint32_t s, uint32_t g, uint32_t record[FOLDGREBE_RECORD_WORDS]);

/* Stores data_words words (11 or 64) as the block, and touches no other block. Refuses 1, 2, 3, 4, 6, 7. */
uint32_t foldgrebe_write (uint32_t *image, size_t words, uint32_t shape, uint32_t s, uint32_t g, uint32_t block, const uint32_t *data, size_t data_words);

/* Copies the block's mended data to the buffer (11 or 64 words); where it is lost the buffer stays as it was. The image
   is not altered: verdict and counts are what a visit would say. Refuses 1, 2, 3, 4, 6, 7. */
uint32_t foldgrebe_read  (const uint32_t *image, size_t words, uint32_t shape, uint32_t s, uint32_t g, uint32_t block, uint32_t *buffer,
                         size_t buffer_words, uint32_t verdict[FOLDGREBE_VERDICT_WORDS]);

/* Checks the block and mends it in place; a lost block is left as it is, its good lanes too. Refuses 1, 2, 3, 4, 6. */
uint32_t foldgrebe_visit (uint32_t *image, size_t words, uint32_t shape, uint32_t s, uint32_t g, uint32_t block, uint32_t verdict[FOLDGREBE_VERDICT_WORDS]);

/* Puts the block on the waiting list and gives its place, 1 being next; a block that waits already keeps its place, and
   the record stays as it was. Refuses 1, 2, 3, 5, 6, 8. */
uint32_t foldgrebe_ask   (uint32_t record[FOLDGREBE_RECORD_WORDS], uint32_t block, uint32_t place[1]);

/* Visits the next block, then the block at place 1 if one waits, and moves the record on. The report has the block, its
   verdict and counts, then the same of the block asked for, or zeros where none waited. Refuses 1, 2, 3, 4, 5. */
uint32_t foldgrebe_turn  (uint32_t record[FOLDGREBE_RECORD_WORDS], uint32_t *image, size_t words, uint32_t report[FOLDGREBE_REPORT_WORDS]);

/* Writes the image as a file of version 2, of 9 + 4 * words bytes, from byte 0 of `file` on, and gives its length; the
   bytes behind it stay as they were, and so does the image. Refuses 1, 2, 3, 4, 11, 12. Refused, it writes no byte, and the
   length is 0. */
uint32_t foldgrebe_file_write (const uint32_t *image, size_t words, uint32_t shape, uint32_t s, uint32_t g, uint8_t *file, size_t bytes,
                               uint32_t written[1]);

/* Tells what the file says of its image: shape, s and g. Refuses 11, 10 (below 9 bytes), 9, 10 (length field), 1, 2, 3, 4,
   as the inspecting program does. */
uint32_t foldgrebe_file_layout(const uint8_t *file, size_t bytes, uint32_t layout[FOLDGREBE_LAYOUT_WORDS]);

/* Copies the file's words to an image of exactly rows * s * g words, by its own layout, which it tells too; of a
   version 1 file rows 1 and 2 of each block are complemented on the way in, and nothing is mended. Refuses as file_layout does, and then 4 where the
   image is of another length. Refused, the image stays as it was. */
uint32_t foldgrebe_file_read  (const uint8_t *file, size_t bytes, uint32_t *image, size_t words, uint32_t layout[FOLDGREBE_LAYOUT_WORDS]);

/* A call to come, which the library has not yet: only what is built with this switch, against another library, sees it. */
#ifdef FOLDGREBE_VISIT_AROUND

/* What it adds to the above. The promise about reads is for runs of calls without visit_around: naming healthy rows can make a wrong
   block valid. Any words may stand in the list of rows. Two refusals come after the others:
    13  more than three rows are named
    14  a named row is 0, above the rows of the shape, or named twice */

/* The two counts as visit_around gives them where it mends: bits changed inside the rows that are named, and outside them. */
#define FOLDGREBE_AROUND_INSIDE  1
#define FOLDGREBE_AROUND_OUTSIDE 2
#define FOLDGREBE_AROUND_ROWS    3   /* the most rows that may be named */

/* From visit_around, mended: inside up to 96, none where no row is named; outside up to 32, none where two or three are; together from 1.
   Lost with rows named: the lanes that cannot be made valid so, from 1 to 32, and 0; with none named, the lanes of each kind as above. */

/* A visit around up to three rows, numbered from 1, that a self-test lays on a failed chip; these may hold anything. No row named: an
   ordinary visit. One: the block becomes the one valid block that agrees with the found one outside that row, but for at most
   one bit a lane. Two or three: the one that agrees everywhere outside them. There is never a second such block; where there is
   none, the block is lost and left as it is, its good lanes too. Name only rows that are known dead: healthy ones can make a wrong
   block valid, as rows 1, 2 and 4 do where row 7 was hit. The list of rows is not altered. Refuses 1, 2, 3, 4, 6, 13, 14. */
uint32_t foldgrebe_visit_around(uint32_t *image, size_t words, uint32_t shape, uint32_t s, uint32_t g, uint32_t block, const uint32_t *rows,
                                size_t count, uint32_t verdict[FOLDGREBE_VERDICT_WORDS]);

#endif

#ifdef __cplusplus
}
#endif

#endif
