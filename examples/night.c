/* A night in C: a file that is refused, one that is taken, three enquiries, and the taken file handed back.
 * night HOLDING CHANGE REFUSED: three files. */
#include "../include/muiwash.h"
#include <inttypes.h>
#include <stdio.h>
#include <stdlib.h>
#include <string.h>

enum { MOST = 65536 }; /* bytes of a file that this example reads */
struct bytes { uint8_t *start; size_t length; };
static uint64_t answer[7];

static struct bytes lent(size_t length) {
    struct bytes b = {malloc(length), length};
    if (!b.start) exit(2);
    return b;
}
static struct bytes read_file(const char *path) {
    struct bytes b = lent(MOST);
    FILE *f = fopen(path, "rb");
    b.length = f ? fread(b.start, 1, MOST, f) : 0;
    if (f) fclose(f);
    return b;
}
static struct bytes written(struct bytes b) { /* what stands before the zeros */
    while (b.length > 0 && b.start[b.length - 1] == 0) b.length--;
    return b;
}
/* One call: gives the new holding back and leaves the undo in `undo`, which is lent so many bytes; both are empty on a refusal. */
static struct bytes load(struct bytes holding, struct bytes file, size_t undo_room, struct bytes *undo) {
    struct bytes out = lent(MUIWASH_ROOM(holding.length, file.length));
    *undo = lent(undo_room);
    muiwash_load(holding.start, holding.length, file.start, file.length, out.start, out.length, undo->start, undo->length, answer);
    *undo = written(*undo);
    return written(out);
}
static void print(const char *what, int count) {
    printf("%s: ", what);
    for (int i = 0; i < count; i++) printf("%" PRIu64 "%s", answer[i], i + 1 < count ? "," : "\n");
}

int main(int argc, char **argv) {
    if (argc != 4) return 2;
    struct bytes holding = read_file(argv[1]), change = read_file(argv[2]), refused = read_file(argv[3]), undo;
    muiwash_check_holding(holding.start, holding.length, answer);
    print("the holding", 3);
    struct bytes none = load(holding, refused, MUIWASH_UNDO_ROOM(holding.length, refused.length), &undo);
    print("refused", 7);
    printf("bytes left in the outputs: %zu and %zu\n", none.length, undo.length);
    struct bytes taken = load(holding, change, MUIWASH_UNDO_ROOM(holding.length, change.length), &undo);
    print("taken", 7);
    printf("bytes of its undo, which is kept: %zu\n", undo.length);
    muiwash_find(holding.start, holding.length, 11, 40000102, answer);
    printf("street 40000102: %.*s\n", (int)answer[4], (const char *)holding.start + answer[3]);
    muiwash_in_force(holding.start, holding.length, change.start, change.length, 21, 130000001, answer);
    printf("BLPU 130000001, in force in the %s: %.*s\n", answer[3] ? "file" : "holding", (int)answer[5],
           (const char *)(answer[3] ? change : holding).start + answer[4]);
    muiwash_field(holding.start, holding.length, 2, 4, answer);
    printf("line 2, field 4: %.*s\n", (int)answer[4], (const char *)holding.start + answer[3]);
    struct bytes again, back = load(taken, undo, MUIWASH_BACK_ROOM(change.length, undo.length), &again);
    print("the undo, taken", 7);
    int same = back.length == holding.length && memcmp(back.start, holding.start, back.length) == 0;
    printf("handed back: %s\n", same ? "the old holding, byte for byte" : "NOT the old holding");
    return same ? 0 : 1;
}
