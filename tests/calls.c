/* What the header says of buffers and stack, tried: NULL with length 0, no byte beyond what is lent, and 256 KiB of stack.
 * calls HOLDING CHANGE: two files, of which the second is taken into the first. */
#define _POSIX_C_SOURCE 200809L
#include "../include/muiwash.h"
#include <pthread.h>
#include <stdio.h>
#include <stdlib.h>
#include <string.h>

enum { CALLS = 6, ROOM = 65536, STACK = 1 << 20, STATED = 256 * 1024, MARK = 0xA5 };
static uint8_t holding[ROOM], change[ROOM], out[ROOM + 1], undo[ROOM + 1];
static uint64_t answer[8];
static size_t h, c;
static int which, faults;

static void expect(int holds, const char *what) {
    if (holds) return;
    printf("FAILED: %s\n", what);
    faults++;
}
static size_t read_file(const char *path, uint8_t *into) {
    FILE *f = fopen(path, "rb");
    size_t n = f ? fread(into, 1, ROOM, f) : 0;
    if (f) fclose(f);
    return n;
}
/* One of the six, on the night or on nothing. */
static void call(const uint8_t *a, size_t an, const uint8_t *b, size_t bn, uint8_t *o, uint8_t *u, size_t room) {
    switch (which) {
    case 0: muiwash_check_file(b, bn, answer); break;
    case 1: muiwash_check_holding(a, an, answer); break;
    case 2: muiwash_load(a, an, b, bn, o, room, u, room, answer); break;
    case 3: muiwash_find(a, an, 11, 40000102, answer); break;
    case 4: muiwash_in_force(a, an, b, bn, 21, 130000001, answer); break;
    case 5: muiwash_field(a, an, 1, 1, answer); break;
    }
}
static void *on_the_night(void *unused) {
    if (which < CALLS) call(holding, h, change, c, out, undo, ROOM);
    return unused;
}
/* The bytes of stack that a thread uses which makes that call. */
static size_t stack_of(int function) {
    uint8_t *stack = aligned_alloc(4096, STACK);
    pthread_attr_t attributes;
    pthread_t thread;
    size_t free_bytes = 0;
    which = function;
    memset(stack, MARK, STACK);
    if (pthread_attr_init(&attributes) || pthread_attr_setstack(&attributes, stack, STACK) ||
        pthread_create(&thread, &attributes, on_the_night, NULL) || pthread_join(thread, NULL))
        exit(2);
    while (free_bytes < STACK && stack[free_bytes] == MARK) free_bytes++;
    free(stack);
    return STACK - free_bytes;
}

int main(int argc, char **argv) {
    static const int numbers[CALLS] = {7, 3, 7, 5, 6, 5};
    static const uint64_t on_nothing[CALLS] = {MUIWASH_OUT_OF_PLACE, MUIWASH_DONE, MUIWASH_OUT_OF_PLACE, MUIWASH_ABSENT,
                                               MUIWASH_OUT_OF_PLACE, MUIWASH_NO_SUCH_PART};
    if (argc != 3) return 2;
    h = read_file(argv[1], holding), c = read_file(argv[2], change);
    size_t bare = stack_of(CALLS), most = 0;
    for (int i = 0; i < CALLS; i++) {
        memset(answer, MARK, sizeof answer), memset(out, MARK, sizeof out), memset(undo, MARK, sizeof undo);
        size_t used = stack_of(i) - bare;
        if (used > most) most = used;
        expect(answer[0] == MUIWASH_DONE, "the night is taken, and every enquiry is answered");
        expect(answer[numbers[i] - 1] != answer[7] && answer[numbers[i]] == answer[7], "as many numbers as are stated");
        expect(out[ROOM] == MARK && undo[ROOM] == MARK, "no byte beyond the buffers");
        expect((out[ROOM - 1] == MARK) == (i != 2), "an output is written to its end");
        expect((undo[ROOM - 1] == MARK) == (i != 2), "an undo's buffer is written to its end");
        call(NULL, 0, NULL, 0, NULL, NULL, 0);
        expect(answer[0] == on_nothing[i], "nothing lent is met");
    }
    expect(most <= STATED, "256 KiB of stack are enough");
    printf("calls: %d faults; the most stack that a call used: %zu bytes\n", faults, most);
    return faults != 0;
}
