/* walk COPIES SEED FILE ..: each line of the files is put to the walk and to the exact check, then so many damaged copies of it. A line
 * stands among others, so that the walk has room to look ahead, and then at the very end of the bytes. What the walk passes the exact
 * check must pass, up to the same end; and the walk must pass each undamaged line that is sound and stands among others. */
#include <stdint.h>
#include <stdio.h>
#include <stdlib.h>
#include <string.h>

/* crates/walked */
uint64_t walked_end(const uint8_t *s, uint64_t length, uint64_t at);
uint64_t judged_end(const uint8_t *s, uint64_t length, uint64_t at);

enum { ROOM = 4096, AFTER = 64 };
static uint64_t state, both, exact_alone, neither, faults;

static uint64_t below(uint64_t end) {
    state ^= state << 13, state ^= state >> 7, state ^= state << 17;
    return state % end;
}

/* Fields on either side of an edge of some form, and where a word of eight bytes ends. */
static const char *const FIELDS[] = {
    "", "\"\"", "\"", "0", "00000000", "1", "9", "1234567", "12345678", "123456789", "1234567890123456", "12345678901234567", "-1",
    "1899-12-31", "1900-01-01", "1900-02-29", "1999-12-31", "2000-02-29", "2001-02-29", "2001-04-30", "2001-04-31", "2001-12-31",
    "2099-12-31", "2100-01-01", "1582-12-31", "1583-01-01", "2001-13-01", "2001-00-01", "2001-01-00", "2001-01-1", "2001/01/01",
    "0.00", "-0.00", "--0.00", "1234567.00", "12345678.00", "1.0", "1.000", "1.", ".00", "235959", "240000", "\"I\"", "\"X\"", "\"i\"",
    "\"9078X000000001\"", "\"9078L000000001\"", "\"9078X00000001\"", "\"9078X0000000001\"", "\"a\"", "\"a\"\"b\"", "\"a,b\"", "\"a\"b\"",
    "\"abcdef\"", "\"abcdefg\"", "\"abcdefgh\"", "\"abcdefgh\xC3\xB2\"", "\"abcdefg\xC3\"", "\"\x7F\"", "\"\x1F\"", "\"\x80\"", "3"};
static const uint8_t BYTES[] = "\r\n\"\",,-.:/0129AILUDX \x1F\x7F\x80\xC3\xB2\xFF";

static size_t put(uint8_t *line, size_t length, size_t at, size_t gone, const void *bytes, size_t count) {
    if (length - gone + count + AFTER > ROOM) return length;
    memmove(line + at + count, line + at + gone, length - at - gone);
    memcpy(line + at, bytes, count);
    return length - gone + count;
}

/* One fault, or a change that is none: a byte changed, put in or taken out, a field replaced, doubled or taken out. */
static size_t damage(uint8_t *line, size_t length) {
    size_t at = below(length), end = at;
    uint8_t byte = BYTES[below(sizeof BYTES - 1)], field[ROOM];
    switch (below(6)) {
    case 0: line[at] = byte; return length;
    case 1: return put(line, length, at, 0, &byte, 1);
    case 2: return put(line, length, at, 1, "", 0);
    }
    while (at > 0 && line[at - 1] != ',') at--;
    while (end + 2 < length && line[end] != ',') end++;
    if (below(3)) {
        const char *edge = FIELDS[below(sizeof FIELDS / sizeof *FIELDS)];
        return put(line, length, at, end - at, edge, strlen(edge));
    }
    if (below(2)) return put(line, length, at, end + 1 - at, "", 0);
    memcpy(field, line + at, end + 1 - at);
    return put(line, length, at, 0, field, end + 1 - at);
}

/* Puts a line to both; whether the walk passed it. */
static int compare(const uint8_t *line, size_t length, size_t after) {
    uint64_t walked = walked_end(line, length + after, 0), judged = judged_end(line, length + after, 0);
    if (walked) both++;
    else if (judged) exact_alone++;
    else neither++;
    if (walked && walked != judged) {
        faults++;
        fprintf(stderr, "walk: it passes up to %llu, and the exact check up to %llu: ", (unsigned long long)walked, (unsigned long long)judged);
        fwrite(line, 1, length, stderr);
    }
    return walked != 0;
}

static uint64_t lines, unseen;

static void ask(const uint8_t *line, size_t length, unsigned copies) {
    static uint8_t copy[ROOM];
    lines++;
    if (length + AFTER > ROOM) return;
    for (unsigned i = 0; i <= copies; i++) {
        size_t now = length;
        memcpy(copy, line, length);
        for (uint64_t n = i ? 1 + below(2) : 0; n > 0; n--) now = damage(copy, now);
        memset(copy + now, ',', AFTER);
        int seen = compare(copy, now, AFTER);
        if (!i && !seen && judged_end(copy, now + AFTER, 0)) unseen++;
        compare(copy, now, 0);
    }
}

static void ask_file(const char *path, unsigned copies) {
    FILE *f = fopen(path, "rb");
    if (!f || fseek(f, 0, SEEK_END)) exit((perror(path), 2));
    size_t length = (size_t)ftell(f);
    uint8_t *bytes = malloc(length + 1);
    rewind(f);
    if (!bytes || fread(bytes, 1, length, f) != length || fclose(f)) exit((perror(path), 2));
    for (size_t at = 0, end; at < length; at = end) {
        for (end = at + 1; end < length && !(bytes[end - 1] == '\r' && bytes[end] == '\n'); end++);
        end++;
        ask(bytes + at, end - at, copies);
    }
    free(bytes);
}

int main(int argc, char **argv) {
    if (argc < 4) return 2;
    state = 0x9E3779B97F4A7C15u * (strtoull(argv[2], NULL, 10) + 1);
    for (int i = 3; i < argc; i++) ask_file(argv[i], (unsigned)atoi(argv[1]));
    printf("walk: %llu lines of the corpora, of which the walk saw all but %llu to be sound; with damaged copies, and at the end of the bytes, %llu\n"
           "were passed by the walk and by the exact check, %llu by the exact check alone, %llu by neither; %llu faults\n",
           (unsigned long long)lines, (unsigned long long)unseen, (unsigned long long)both, (unsigned long long)exact_alone,
           (unsigned long long)neither, (unsigned long long)faults);
    return faults || unseen || !both || !neither;
}
