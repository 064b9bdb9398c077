/* Where a malformed field goes wrong, as compilers show it: its line, a mark under the byte, and what could have stood there.
 *
 * The loader alone judges: each of the 256 bytes is put there in turn, and check_file asked. */
#include "byte.h"
#include "../include/muiwash.h"
#include <inttypes.h>
#include <stdio.h>
#include <stdlib.h>
#include <string.h>

enum { BYTES = 256, INDENT = 4, WIDE = 100, LEFT = 60 };
struct fault {
    struct bytes front, line;
    uint64_t number, field, place; /* number: the line's, behind the front */
    size_t start, end;             /* the field's, in the line */
};
struct run { int first, last; };

/* ---- the line and the mark */

/* How many bytes are printed as they are at that place of a line: one letter of UTF-8; 0 where none begins, or a control. */
static size_t letter(struct bytes line, size_t at) {
    static const uint32_t least[] = {0, 0x20, 0xA0, 0x800, 0x10000};
    uint8_t first = line.start[at];
    size_t length = first < 0x80 ? 1 : first < 0xC0 ? 0 : first < 0xE0 ? 2 : first < 0xF0 ? 3 : first < 0xF8 ? 4 : 0;
    uint32_t value = length == 1 ? first : first & (0x7F >> length);
    if (line.length - at < length) return 0;
    for (size_t i = 1; i < length; i++) {
        if ((line.start[at + i] & 0xC0) != 0x80) return 0;
        value = value << 6 | (line.start[at + i] & 0x3F);
    }
    if (value < least[length] || value == 0x7F || (value >= 0xD800 && value <= 0xDFFF) || value > 0x10FFFF) return 0;
    return length;
}
size_t step(struct bytes line, size_t at) { return letter(line, at) ? letter(line, at) : 1; }
/* How many columns those bytes of a line take; one that isn't printed as it is takes those of \xHH. */
static size_t columns(struct bytes line, size_t from, size_t to) {
    size_t count = 0;
    for (; from < to; from += step(line, from)) count += letter(line, from) ? 1 : 4;
    return count;
}
void print_part(struct bytes line, size_t from, size_t to) {
    for (; from < to; from += step(line, from))
        if (letter(line, from)) fwrite(line.start + from, 1, letter(line, from), stdout);
        else printf("\\x%02X", (unsigned)line.start[from]);
}
/* A line, or what is around that byte of a long one, and the mark under the byte, which begins a letter or is in none. */
static void print_marked(struct bytes line, size_t at) {
    size_t from = 0, to = line.length;
    if (columns(line, 0, line.length) > WIDE) {
        for (size_t left = columns(line, 0, at); left > LEFT; from += step(line, from)) left -= columns(line, from, from + 1);
        to = at;
        while (to < line.length && columns(line, from, to + step(line, to)) <= WIDE) to += step(line, to);
    }
    printf("\n%*s%s", INDENT, "", from ? ".." : "");
    print_part(line, from, to);
    printf("%s\n", to < line.length ? ".." : "");
    printf("%*s^ ", INDENT + (from ? 2 : 0) + (int)columns(line, from, at), "");
}

/* ---- what could have stood there */

/* The line behind its front, with the field as it is before the place and these bytes in place of the rest; the caller frees it. */
static struct bytes with(const struct fault *f, struct bytes rest) {
    struct bytes parts[] = {f->front, {f->line.start, f->start + f->place - 1}, rest, {f->line.start + f->end, f->line.length - f->end}};
    uint8_t *all = malloc(f->front.length + f->line.length + rest.length);
    size_t length = 0;
    if (!all) exit(2);
    for (size_t i = 0; i < sizeof parts / sizeof *parts; i++) {
        if (parts[i].length) memcpy(all + length, parts[i].start, parts[i].length);
        length += parts[i].length;
    }
    return (struct bytes){all, length};
}
/* Whether the loader then finds the line whole, and its field right as far as the place. */
static int could_be(const struct fault *f, struct bytes rest) {
    struct bytes file = with(f, rest);
    uint64_t answer[7];
    muiwash_check_file(file.start, file.length, answer);
    free((void *)file.start);
    if (answer[1] != f->number || answer[0] > MUIWASH_MALFORMED) return 1;
    return answer[0] == MUIWASH_MALFORMED && (answer[2] != f->field || answer[6] > f->place);
}
/* Which bytes could stand at the place. A quote that one leaves open is closed behind it, or the line couldn't be split into fields. */
static void find_bytes(const struct fault *f, uint8_t could[BYTES]) {
    int open = 0;
    for (size_t i = f->start; i < f->start + f->place - 1; i++) open ^= f->line.start[i] == '"';
    for (int b = 0; b < BYTES; b++) {
        const uint8_t rest[] = {(uint8_t)b, '"'};
        could[b] = (uint8_t)could_be(f, (struct bytes){rest, open ^ (b == '"') ? 2 : 1});
    }
}
/* Whether a character of a text can begin with that byte. */
static int begins_character(int b) { return b < 0x80 ? b >= ' ' && b != '"' && b != 0x7F : b >= 0xC2 && b <= 0xF4; }
/* Whether all those bytes are among them; if so they are taken out. */
static int take_characters(uint8_t could[BYTES]) {
    for (int b = 0; b < BYTES; b++)
        if (begins_character(b) && !could[b]) return 0;
    for (int b = 0; b < BYTES; b++)
        if (begins_character(b)) could[b] = 0;
    return 1;
}
/* How many bytes before the place begin a letter of UTF-8 that only the end of one can follow. */
static size_t begun(const struct fault *f, const uint8_t could[BYTES]) {
    const uint8_t *at = f->line.start + f->start + f->place - 1;
    size_t count = 1;
    int many = 0;
    for (int b = 0; b < BYTES; b++) {
        if (could[b] && (b & 0xC0) != 0x80) return 0;
        many += could[b];
    }
    while (many && (*(at - count) & 0xC0) == 0x80) count++;
    return many ? count : 0;
}
/* Three bytes or more that follow each other are one run; two are two. */
static int find_runs(const uint8_t could[BYTES], struct run runs[BYTES]) {
    int count = 0, last;
    for (int b = 0; b < BYTES; b = last + 1) {
        for (last = b; last + 1 < BYTES && could[b] && could[last + 1];) last++;
        if (last == b + 1) last = b;
        if (could[b]) runs[count++] = (struct run){b, last};
    }
    return count;
}
static void print_byte(int b) {
    if (b == ' ') printf("a blank"); else if (b > ' ' && b < 0x7F) putchar(b); else printf("\\x%02X", (unsigned)b);
}
/* "0 to 9", "- or 0 to 9", "D, I or U"; how many were said. */
static int print_bytes(uint8_t could[BYTES]) {
    struct run runs[BYTES];
    int text = take_characters(could), count = find_runs(could, runs);
    if (text) printf("any character of a text");
    for (int i = 0; i < count; i++) {
        if (text + i > 0) printf(i < count - 1 ? ", " : " or ");
        print_byte(runs[i].first);
        if (runs[i].last > runs[i].first) printf(" to "), print_byte(runs[i].last);
    }
    return text + count;
}
/* What an accented vowel is that stands by itself, as Latin-1 has it. */
static void print_accent(const uint8_t *byte) {
    static const char capitals[] = "\xC0\xC1\xC8\xC9\xCC\xCD\xD2\xD3\xD9\xDA";
    if (byte[1] < 0x80 && byte[0] >= 0xC0 && strchr(capitals, (char)(byte[0] & 0xDF))) printf(" (\xC3%c in Latin-1)", byte[0] & 0xBF);
}
/* What is wrong with bytes that are no letter of UTF-8: those cut off at the place, or where there are none the byte there. */
static void print_no_letter(const uint8_t *at, size_t cut) {
    struct bytes found = {at - cut, cut ? cut : 1};
    print_part(found, 0, found.length);
    if (found.length == 1) print_accent(found.start);
    printf(cut ? " begins a letter of UTF-8 that is cut here: " : " begins no letter of UTF-8: ");
}
static void print_could(const struct fault *f) {
    const uint8_t *at = f->line.start + f->start + f->place - 1;
    uint8_t could[BYTES];
    int ends = could_be(f, (struct bytes){NULL, 0}), past = f->place > f->end - f->start, many = 0;
    find_bytes(f, could);
    for (int b = 0; b < BYTES; b++) many += could[b];
    size_t cut = begun(f, could);
    if (past) printf("the field stops too soon: "); else printf("byte %" PRIu64 " of the field: ", f->place);
    if (cut || (!past && *at >= 0x80 && could['a'] && could[0xC3])) print_no_letter(at, cut);
    if (cut || (many == 1 && !ends)) printf("only ");
    if (print_bytes(could)) printf(past || cut ? " could follow" : " could stand here");
    else printf("nothing could stand here, the field must end before it");
    if (many && ends) printf(f->place == 1 ? ", or the field could be empty" : ", or the field could end");
}

void show_byte(struct bytes front, struct bytes line, uint64_t field, uint64_t place) {
    uint64_t answer[5];
    struct fault f = {front, line, 1, field, place, 0, 0};
    for (size_t i = 0; i < front.length; i++) f.number += front.start[i] == '\n';
    muiwash_field(line.start, line.length, 1, field, answer);
    f.start = answer[3];
    f.end = answer[3] + answer[4];
    print_marked((struct bytes){line.start, line.length - 2}, f.start + place - 1);
    print_could(&f);
}
