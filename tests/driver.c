/* The library behind a pipe: calls on standard input, answers on standard output, until the input ends.
 * A call: one byte (the operation, in the header's order), six 8-byte numbers, least byte first (lengths of holding, file, out and undo,
 * then kind and number, or line and field), the holding's bytes, the file's bytes. A field is asked of the holding's bytes.
 * An answer: one byte (0, or 1 where something beyond what was lent, or only read, was changed), the answer's numbers, all of out, all of
 * undo. Buffers are full of rubbish before a call and guarded after their end; a buffer of no bytes is NULL. */
#include "../include/muiwash.h"
#include <stdio.h>
#include <stdlib.h>
#include <string.h>

enum { GUARD = 64, MARK = 0xA5, NUMBERS = 7 };
struct buffer { uint8_t *bytes; size_t length, room; };
static struct buffer holding, file, out, undo, holding_kept, file_kept;

static int number_in(uint64_t *number) {
    uint8_t b[8];
    if (fread(b, 1, 8, stdin) != 8) return 0;
    *number = 0;
    for (int i = 7; i >= 0; i--) *number = *number << 8 | b[i];
    return 1;
}
static void number_out(uint64_t number) {
    for (int i = 0; i < 8; i++) putchar((int)(number >> (8 * i) & 0xFF));
}
/* A buffer of this length, full of marks, its guard too. */
static void lend(struct buffer *b, uint64_t length) {
    if (!b->bytes || length + GUARD > b->room) {
        free(b->bytes);
        b->room = (size_t)length + GUARD;
        b->bytes = malloc(b->room);
        if (!b->bytes) exit(2);
    }
    b->length = (size_t)length;
    memset(b->bytes, MARK, b->length + GUARD);
}
static int guarded(const struct buffer *b) {
    for (size_t i = 0; i < GUARD; i++)
        if (b->bytes[b->length + i] != MARK) return 0;
    return 1;
}
static uint8_t *start(const struct buffer *b) { return b->length ? b->bytes : NULL; }
static int read_whole(struct buffer *b, struct buffer *kept, uint64_t length) {
    lend(b, length);
    lend(kept, length);
    if (fread(b->bytes, 1, b->length, stdin) != b->length) return 0;
    memcpy(kept->bytes, b->bytes, b->length);
    return 1;
}
/* Makes the call and says how many numbers its answer has. */
static int call(int operation, uint64_t first, uint64_t second, uint64_t *answer) {
    const uint8_t *h = start(&holding), *f = start(&file);
    size_t hn = holding.length, fn = file.length;
    switch (operation) {
    case 0: muiwash_check_file(f, fn, answer); return 7;
    case 1: muiwash_check_holding(h, hn, answer); return 3;
    case 2: muiwash_load(h, hn, f, fn, start(&out), out.length, start(&undo), undo.length, answer); return 7;
    case 3: muiwash_find(h, hn, first, second, answer); return 5;
    case 4: muiwash_in_force(h, hn, f, fn, first, second, answer); return 6;
    case 5: muiwash_field(h, hn, first, second, answer); return 5;
    default: exit(2);
    }
}
int main(void) {
    uint64_t asked[6], answer[NUMBERS + 2], mark;
    memset(&mark, MARK, sizeof mark);
    for (int operation; (operation = getchar()) != EOF;) {
        for (int i = 0; i < 6; i++)
            if (!number_in(&asked[i])) return 2;
        if (!read_whole(&holding, &holding_kept, asked[0]) || !read_whole(&file, &file_kept, asked[1])) return 2;
        lend(&out, asked[2]);
        lend(&undo, asked[3]);
        memset(answer, MARK, sizeof answer);
        int n = call(operation, asked[4], asked[5], answer);
        int kept = guarded(&holding) && guarded(&file) && guarded(&out) && guarded(&undo);
        kept = kept && !memcmp(holding.bytes, holding_kept.bytes, holding.length) && !memcmp(file.bytes, file_kept.bytes, file.length);
        for (int i = n; i < NUMBERS + 2; i++) kept = kept && answer[i] == mark;
        putchar(!kept);
        for (int i = 0; i < n; i++) number_out(answer[i]);
        fwrite(out.bytes, 1, out.length, stdout);
        fwrite(undo.bytes, 1, undo.length, stdout);
        if (fflush(stdout)) return 2;
    }
    return 0;
}
