/* Runs stored vectors (tests/VECTORS.md) on the library: vectors <FILE prints how many calls agree, or the first that does not. */
#include <stdio.h>
#include <stdlib.h>
#include <string.h>
#include "foldgrebe.h"

enum { MOST = 1024, FORMAT = 1, WRITE, READ, VISIT, ASK, TURN, FILE_WRITE, FILE_LAYOUT, FILE_READ, VISIT_AROUND };
enum { OPCODE, SHAPE, S, G, BLOCK, IMAGE_WORDS, LIST_WORDS, RECORD_WORDS, LENT };
/* An answer: the number, a report (a verdict at its place there, a layout at its front), and the place of an ask or a file's length. */
enum { NUMBER, REPORT, LAYOUT = REPORT, VERDICT = REPORT + FOLDGREBE_REPORT_VERDICT, PLACE = REPORT + FOLDGREBE_REPORT_WORDS, ANSWER_WORDS };

static uint32_t vector[MOST];

/* The next word, most significant byte first; 0 at the end of the input too. */
static uint32_t word(void)
{
    unsigned char b[4];
    if (fread(b, 1, 4, stdin) != 4) return 0;
    return (uint32_t)b[0] << 24 | (uint32_t)b[1] << 16 | (uint32_t)b[2] << 8 | b[3];
}

/* A list of bytes, one a word, is lent as bytes, and told as words again; a word that is no byte agrees with nothing. */
static uint32_t run_file(const uint32_t *v, uint32_t *image, uint32_t *list, uint32_t answer[])
{
    uint8_t file[MOST];
    size_t words = v[IMAGE_WORDS], bytes = v[LIST_WORDS];
    uint32_t number;
    for (size_t i = 0; i < bytes; i++) {
        if (list[i] > UINT8_MAX) return UINT32_MAX;
        file[i] = (uint8_t)list[i];
    }
    switch (v[OPCODE]) {
    case FILE_WRITE: number = foldgrebe_file_write(image, words, v[SHAPE], v[S], v[G], file, bytes, answer + PLACE); break;
    case FILE_LAYOUT: number = foldgrebe_file_layout(file, bytes, answer + LAYOUT); break;
    default: number = foldgrebe_file_read(file, bytes, image, words, answer + LAYOUT);
    }
    for (size_t i = 0; i < bytes; i++) list[i] = file[i];
    return number;
}

static uint32_t run(const uint32_t *v, uint32_t *image, uint32_t *list, uint32_t *record, uint32_t answer[ANSWER_WORDS])
{
    size_t words = v[IMAGE_WORDS], length = v[LIST_WORDS];
    switch (v[OPCODE]) {
    case FORMAT: return foldgrebe_format(image, words, v[SHAPE], v[S], v[G], record);
    case WRITE: return foldgrebe_write(image, words, v[SHAPE], v[S], v[G], v[BLOCK], list, length);
    case READ: return foldgrebe_read(image, words, v[SHAPE], v[S], v[G], v[BLOCK], list, length, answer + VERDICT);
    case VISIT: return foldgrebe_visit(image, words, v[SHAPE], v[S], v[G], v[BLOCK], answer + VERDICT);
    case ASK: return foldgrebe_ask(record, v[BLOCK], answer + PLACE);
    case TURN: return foldgrebe_turn(record, image, words, answer + REPORT);
    case FILE_WRITE: case FILE_LAYOUT: case FILE_READ: return run_file(v, image, list, answer);
#ifdef FOLDGREBE_VISIT_AROUND
    case VISIT_AROUND: return foldgrebe_visit_around(image, words, v[SHAPE], v[S], v[G], v[BLOCK], list, length, answer + VERDICT);
#endif
    default: return UINT32_MAX;
    }
}

int main(void)
{
    unsigned agree = 0;
    for (uint32_t length; (length = word()) != 0; agree++) {
        uint32_t answer[ANSWER_WORDS] = { 0 };
        if (length > MOST) { printf("vectors: call %u is too long\n", agree + 1); return 1; }
        for (uint32_t i = 0; i < length; i++) vector[i] = word();
        uint32_t *image = vector + LENT, *list = image + vector[IMAGE_WORDS], *record = list + vector[LIST_WORDS];
        uint32_t *expected = record + vector[RECORD_WORDS];
        size_t lent = (size_t)(expected - image);
        answer[NUMBER] = run(vector, image, list, record, answer);
        if (memcmp(answer, expected, sizeof answer) || memcmp(image, expected + ANSWER_WORDS, lent * sizeof *image)) {
            printf("vectors: call %u (opcode %u) does not agree\n", agree + 1, vector[OPCODE]);
            return 1;
        }
    }
    printf("vectors: %u calls agree\n", agree);
    return agree == 0;
}
