/* Runs a stream of calls on the library and prints what each answers and leaves, in the text of tests/README.md.
   Guard words or bytes stand around everything that is lent; a line says so where one of them, or data, was altered. */
#include <stdio.h>
#include <stdlib.h>
#include <string.h>
#include <sys/mman.h>
#include "foldgrebe.h"

enum { GUARDS = 64, MOST_WORDS = 72 * 4096, MOST_LIST = 100, MOST_CHANGES = 144, MOST_BYTES = FOLDGREBE_FILE_BYTES + 1024 };
static const uint32_t STALE = 0xdeadbeef;   /* what outputs hold before a call */

/* Words that are lent, with guard words before and behind. */
typedef struct { uint32_t *room, *words; size_t length; const char *name; } lent;

/* The places that the header names are those of the specification. */
_Static_assert(FOLDGREBE_VERDICT_NUMBER == 0 && FOLDGREBE_VERDICT_COUNT == 1 && FOLDGREBE_VERDICT_BEYOND == 2 && FOLDGREBE_VERDICT_WORDS == 3, "verdict");
_Static_assert(FOLDGREBE_REPORT_BLOCK == 0 && FOLDGREBE_REPORT_VERDICT == 1 && FOLDGREBE_REPORT_COUNT == 2 && FOLDGREBE_REPORT_BEYOND == 3, "report");
_Static_assert(FOLDGREBE_REPORT_ASK_BLOCK == 4 && FOLDGREBE_REPORT_ASK_VERDICT == 5 && FOLDGREBE_REPORT_ASK_COUNT == 6, "report of the ask");
_Static_assert(FOLDGREBE_REPORT_ASK_BEYOND == 7 && FOLDGREBE_REPORT_WORDS == 8, "report of the ask");
_Static_assert(FOLDGREBE_RECORD_SHAPE == 0 && FOLDGREBE_RECORD_INTERLEAVE == 1 && FOLDGREBE_RECORD_GROUPS == 2 && FOLDGREBE_RECORD_NEXT == 3, "record");
_Static_assert(FOLDGREBE_RECORD_WAITING == 4 && FOLDGREBE_RECORD_PLACES == 5 && FOLDGREBE_PLACES == 16 && FOLDGREBE_RECORD_WORDS == 21, "record");
_Static_assert(FOLDGREBE_LAYOUT_SHAPE == 0 && FOLDGREBE_LAYOUT_INTERLEAVE == 1 && FOLDGREBE_LAYOUT_GROUPS == 2 && FOLDGREBE_LAYOUT_WORDS == 3, "layout");
#ifdef FOLDGREBE_VISIT_AROUND
_Static_assert(FOLDGREBE_AROUND_INSIDE == 1 && FOLDGREBE_AROUND_OUTSIDE == 2 && FOLDGREBE_AROUND_ROWS == 3, "around");
#endif
_Static_assert(FOLDGREBE_CLEAN == 1 && FOLDGREBE_MENDED == 2 && FOLDGREBE_LOST == 3, "verdicts");

static lent image, record, list, verdict, place, report, written, told;
static uint32_t *shadow;                     /* the image as it was before the call */
static uint8_t *file_room, *file;            /* the room for a file, with guard bytes before and behind */
static size_t file_length;
static uint8_t file_shadow[MOST_BYTES];      /* the file as it was before the call */
static char *at;                             /* where in the stream we read */

static uint32_t guard(size_t i) { return 0xa5c3e100u ^ (uint32_t)i * 0x9e3779b1u; }

static void die(const char *why) { fprintf(stderr, "driver: %s\n", why); exit(2); }

static void set_guards(lent *l, uint32_t *words, size_t length)
{
    l->words = words, l->length = length;
    for (size_t i = 0; i < GUARDS; i++) words[-1 - (ptrdiff_t)i] = guard(i), words[length + i] = guard(GUARDS + i);
}

static int guards_stand(const lent *l)
{
    for (size_t i = 0; i < GUARDS; i++)
        if (l->words[-1 - (ptrdiff_t)i] != guard(i) || l->words[l->length + i] != guard(GUARDS + i)) return 0;
    return 1;
}

static uint8_t byte_guard(size_t i) { return (uint8_t)(guard(i) >> 24); }

static void set_file_guards(void)
{
    for (size_t i = 0; i < GUARDS; i++) file[-1 - (ptrdiff_t)i] = byte_guard(i), file[file_length + i] = byte_guard(GUARDS + i);
}

static int file_guards_stand(void)
{
    for (size_t i = 0; i < GUARDS; i++)
        if (file[-1 - (ptrdiff_t)i] != byte_guard(i) || file[file_length + i] != byte_guard(GUARDS + i)) return 0;
    return 1;
}

static void make_room(lent *l, const char *name, size_t most)
{
    l->name = name;
    l->room = calloc(most + 2 * GUARDS + 4, sizeof *l->room);
    if (!l->room) die("no memory");
    set_guards(l, l->room + GUARDS, most);
}

/* Behind what is open lies room for a count above 2^32 of what is lent, reserved but not to be touched: a call that takes such
   a count for a good one ends the driver at once. */
static void *make_wide_room(size_t least, size_t reserved)
{
    size_t open = (least + (1 << 16)) & ~(size_t)4095;
    void *room = mmap(NULL, reserved + ((size_t)1 << 24), PROT_NONE, MAP_PRIVATE | MAP_ANONYMOUS | MAP_NORESERVE, -1, 0);
    if (room == MAP_FAILED) room = mmap(NULL, open, PROT_NONE, MAP_PRIVATE | MAP_ANONYMOUS, -1, 0);
    if (room == MAP_FAILED || mprotect(room, open, PROT_READ | PROT_WRITE)) die("no memory");
    return room;
}

static void make_wide_rooms(void)
{
    image.name = "image", image.room = make_wide_room((size_t)MOST_WORDS * sizeof *shadow, (size_t)1 << 34);
    set_guards(&image, image.room + GUARDS, 0);
    list.name = "list", list.room = make_wide_room(MOST_LIST * sizeof *shadow, (size_t)1 << 34);
    set_guards(&list, list.room + GUARDS, 0);
    file_room = make_wide_room(MOST_BYTES, (size_t)1 << 32), file = file_room + GUARDS;
    set_file_guards();
}

static uint64_t number(void)
{
    uint64_t n = 0;
    while (*at == ' ') at++;
    for (;; at++) {
        if (*at >= '0' && *at <= '9') n = n << 4 | (uint64_t)(*at - '0');
        else if (*at >= 'a' && *at <= 'f') n = n << 4 | (uint64_t)(*at - 'a' + 10);
        else return n;
    }
}

static int more(void) { return *at == ' '; }

static char out[1 << 16];
static size_t used;

static void flush(void) { if (fwrite(out, 1, used, stdout) != used) die("cannot write"); used = 0; }

static void say(const char *text) { while (*text) out[used++] = *text++; }

static void say_number(uint64_t n)
{
    int shift = 60;
    while (shift > 0 && n >> shift == 0) shift -= 4;
    for (out[used++] = ' '; shift >= 0; shift -= 4) out[used++] = "0123456789abcdef"[n >> shift & 15];
}

static void say_words(const uint32_t *words, size_t n) { for (size_t i = 0; i < n; i++) say_number(words[i]); }

/* FNV-1a in 64 bits, a word or a byte at a step. */
static uint64_t step(uint64_t h, uint64_t by) { return (h ^ by) * 0x100000001b3u; }

static uint64_t hash(const uint32_t *words, size_t n)
{
    uint64_t h = 0xcbf29ce484222325u;
    for (size_t i = 0; i < n; i++) h = step(h, words[i]);
    return h;
}

static uint64_t hash_bytes(const uint8_t *bytes, size_t n)
{
    uint64_t h = 0xcbf29ce484222325u;
    for (size_t i = 0; i < n; i++) h = step(h, bytes[i]);
    return h;
}

static void say_changes(void)
{
    size_t changed = 0;
    if (memcmp(shadow, image.words, image.length * sizeof *shadow) == 0) return;
    for (size_t i = 0; i < image.length; i++) changed += shadow[i] != image.words[i];
    if (changed > MOST_CHANGES) {
        say(" changed"), say_number(changed), say_number(hash(image.words, image.length));
    } else for (size_t i = 0; i < image.length; i++) {
        if (shadow[i] != image.words[i]) say(" at"), say_number(i), say_number(image.words[i]);
    }
    memcpy(shadow, image.words, image.length * sizeof *shadow);
}

/* What a call leaves in the room for a file: how many bytes are others, and a hash of all. */
static void say_file(void)
{
    size_t changed = 0;
    for (size_t i = 0; i < file_length; i++) changed += file[i] != file_shadow[i];
    say_number(changed), say_number(hash_bytes(file, file_length));
    memcpy(file_shadow, file, file_length);
}

static void say_if_altered(void)
{
    if (memcmp(file_shadow, file, file_length) == 0) return;
    say(" FILE altered");
    memcpy(file_shadow, file, file_length);
}

static void say_guards(void)
{
    lent *all[] = { &image, &record, &list, &verdict, &place, &report, &written, &told };
    for (unsigned i = 0; i < sizeof all / sizeof *all; i++) {
        if (guards_stand(all[i])) continue;
        say(" GUARD "), say(all[i]->name);
        set_guards(all[i], all[i]->words, all[i]->length);
    }
    if (file_guards_stand()) return;
    say(" GUARD file");
    set_file_guards();
}

/* The image begins at every word of 16 bytes in turn, so that code that wants more alignment is found out. */
static void set_image(void)
{
    static unsigned offset;
    size_t length = number();
    if (length > MOST_WORDS) die("image too long");
    offset = (offset + 1) % 4;
    set_guards(&image, image.room + GUARDS + offset, length);
    memset(image.words, 0, length * sizeof *image.words);
    for (size_t i = 0; more(); i++) image.words[i] = (uint32_t)number();
    memcpy(shadow, image.words, length * sizeof *shadow);
}

static void flip(void)
{
    while (more()) {
        size_t index = number();
        if (index >= image.length) die("flip outside the image");
        image.words[index] ^= 1u << number();
        shadow[index] = image.words[index];
    }
}

static void put(void)
{
    while (more()) {
        size_t index = number();
        if (index >= image.length) die("put outside the image");
        image.words[index] = shadow[index] = (uint32_t)number();
    }
}

/* The file begins at every byte of 16 in turn, for bytes need no alignment. */
static void set_file(void)
{
    static unsigned offset;
    size_t length = number();
    if (length > MOST_BYTES) die("file too long");
    offset = (offset + 1) % 16;
    file = file_room + GUARDS + offset, file_length = length;
    set_file_guards();
    for (size_t i = 0; i < length; i++) file[i] = (uint8_t)(i * 29 + 165);
    for (size_t i = 0; more(); i++) file[i] = (uint8_t)number();
    memcpy(file_shadow, file, length);
}

static void spoil(void)
{
    while (more()) {
        size_t index = number();
        if (index >= file_length) die("spoil outside the file");
        file[index] = file_shadow[index] = (uint8_t)number();
    }
}

static void stale_outputs(void)
{
    for (unsigned i = 0; i < FOLDGREBE_VERDICT_WORDS; i++) verdict.words[i] = STALE;
    for (unsigned i = 0; i < FOLDGREBE_REPORT_WORDS; i++) report.words[i] = STALE;
    for (unsigned i = 0; i < FOLDGREBE_LAYOUT_WORDS; i++) told.words[i] = STALE;
    place.words[0] = written.words[0] = STALE;
}

typedef struct { size_t words; uint32_t shape, s, g; } layout;

static layout read_layout(void)
{
    layout l;
    l.words = number(), l.shape = (uint32_t)number(), l.s = (uint32_t)number(), l.g = (uint32_t)number();
    return l;
}

static void set_list(size_t length)
{
    if (length > MOST_LIST) die("list too long");
    set_guards(&list, list.room + GUARDS, length);
}

static void format(void)
{
    layout l = read_layout();
    for (unsigned i = 0; i < FOLDGREBE_RECORD_WORDS; i++) record.words[i] = STALE;
    say_number(foldgrebe_format(image.words, l.words, l.shape, l.s, l.g, record.words));
    say_words(record.words, FOLDGREBE_RECORD_WORDS);
}

static void write_block(void)
{
    uint32_t copy[MOST_LIST];
    layout l = read_layout();
    uint32_t block = (uint32_t)number();
    set_list(number());
    for (size_t i = 0; i < list.length; i++) copy[i] = list.words[i] = (uint32_t)number();
    say_number(foldgrebe_write(image.words, l.words, l.shape, l.s, l.g, block, list.words, list.length));
    if (memcmp(copy, list.words, list.length * sizeof *copy)) say(" DATA altered");
}

static void read_block(void)
{
    layout l = read_layout();
    uint32_t block = (uint32_t)number(), first;
    set_list(number());
    first = (uint32_t)number();
    for (size_t i = 0; i < list.length; i++) list.words[i] = first + (uint32_t)i * 0x01010101u;
    say_number(foldgrebe_read(image.words, l.words, l.shape, l.s, l.g, block, list.words, list.length, verdict.words));
    say_words(verdict.words, FOLDGREBE_VERDICT_WORDS);
    say_words(list.words, list.length);
}

static void visit(void)
{
    layout l = read_layout();
    say_number(foldgrebe_visit(image.words, l.words, l.shape, l.s, l.g, (uint32_t)number(), verdict.words));
    say_words(verdict.words, FOLDGREBE_VERDICT_WORDS);
}

#ifdef FOLDGREBE_VISIT_AROUND
/* The rows are given after their count, but for a count above 2^32, of which the first are: what lies behind them is not to be touched. */
static void visit_around(void)
{
    uint32_t copy[MOST_LIST];
    layout l = read_layout();
    uint32_t block = (uint32_t)number();
    size_t count = number();
    set_list(count & UINT32_MAX);
    for (size_t i = 0; i < list.length; i++) copy[i] = list.words[i] = (uint32_t)number();
    say_number(foldgrebe_visit_around(image.words, l.words, l.shape, l.s, l.g, block, list.words, count, verdict.words));
    say_words(verdict.words, FOLDGREBE_VERDICT_WORDS);
    if (memcmp(copy, list.words, list.length * sizeof *copy)) say(" DATA altered");
}
#endif

static void ask(void)
{
    say_number(foldgrebe_ask(record.words, (uint32_t)number(), place.words));
    say_words(place.words, 1);
    say_words(record.words, FOLDGREBE_RECORD_WORDS);
}

static void turn(void)
{
    say_number(foldgrebe_turn(record.words, image.words, number(), report.words));
    say_words(report.words, FOLDGREBE_REPORT_WORDS);
    say_words(record.words, FOLDGREBE_RECORD_WORDS);
}

/* A count above 2^32 is lent too: what lies behind the room is not to be touched. */
static size_t lent_bytes(void)
{
    size_t bytes = number();
    if (bytes > file_length && bytes < (size_t)1 << 32) die("more bytes lent than there are");
    return bytes;
}

static void file_write(void)
{
    layout l = read_layout();
    say_number(foldgrebe_file_write(image.words, l.words, l.shape, l.s, l.g, file, lent_bytes(), written.words));
    say_words(written.words, 1);
    say_file();
}

static void file_layout(void)
{
    say_number(foldgrebe_file_layout(file, lent_bytes(), told.words));
    say_words(told.words, FOLDGREBE_LAYOUT_WORDS);
    say_if_altered();
}

static void file_read(void)
{
    size_t words = number();
    say_number(foldgrebe_file_read(file, lent_bytes(), image.words, words, told.words));
    say_words(told.words, FOLDGREBE_LAYOUT_WORDS);
    say_if_altered();
}

/* A name that another begins with stands behind it. */
static const struct { const char *name; void (*run)(void); } calls[] = {
#ifdef FOLDGREBE_VISIT_AROUND
    { "visit_around", visit_around },
#endif
    { "format", format }, { "write", write_block }, { "read", read_block }, { "visit", visit }, { "ask", ask }, { "turn", turn },
    { "file_write", file_write }, { "file_layout", file_layout }, { "file_read", file_read },
};

static int starts(const char *word)
{
    size_t n = strlen(word);
    if (strncmp(at, word, n) != 0) return 0;
    at += n;
    return 1;
}

static void run_call(void)
{
    for (unsigned k = 0; k < sizeof calls / sizeof *calls; k++) {
        if (!starts(calls[k].name)) continue;
        stale_outputs();
        say(calls[k].name);
        calls[k].run();
        say_changes();
        say_guards();
        return;
    }
    die("no such call");
}

static void run_line(void)
{
    if (starts("image")) set_image();
    else if (starts("flip")) flip();
    else if (starts("put")) put();
    else if (starts("file ")) set_file();
    else if (starts("spoil")) spoil();
    else if (starts("record")) for (unsigned i = 0; i < FOLDGREBE_RECORD_WORDS; i++) record.words[i] = (uint32_t)number();
    else { run_call(); say("\n"); return; }
    say(".\n");
}

/* driver <CALLS; with any argument every line is written at once, so that a crash shows its call. */
int main(int argc, char **argv)
{
    char *line = NULL;
    size_t room = 0;
    int each = argc > 1 && argv[1] != NULL;
    make_wide_rooms();
    make_room(&record, "record", FOLDGREBE_RECORD_WORDS);
    make_room(&verdict, "verdict", FOLDGREBE_VERDICT_WORDS);
    make_room(&place, "place", 1);
    make_room(&report, "report", FOLDGREBE_REPORT_WORDS);
    make_room(&written, "written", 1);
    make_room(&told, "layout", FOLDGREBE_LAYOUT_WORDS);
    shadow = calloc(MOST_WORDS, sizeof *shadow);
    if (!shadow) die("no memory");
    while (getline(&line, &room, stdin) > 0) {
        at = line;
        run_line();
        if (each || used > sizeof out / 2) flush();
        if (each) fflush(stdout);
    }
    flush();
    return 0;
}
