/* Whether a change file is sound, and how many records it inserts, updates and deletes: sound < CHANGE. */
#include <inttypes.h>
#include <muiwash.h>
#include <stdio.h>

enum { ROOM = 1 << 20 };
static uint8_t file[ROOM];

int main(void) {
    uint64_t answer[7];
    size_t length = fread(file, 1, ROOM, stdin);
    if (length == ROOM) return fputs("longer than this example reads\n", stderr), 2;
    muiwash_check_file(file, length, answer);
    if (answer[0] == MUIWASH_DONE)
        printf("sound: %" PRIu64 " inserted, %" PRIu64 " updated, %" PRIu64 " deleted\n", answer[3], answer[4], answer[5]);
    else if (answer[0] == MUIWASH_MALFORMED)
        printf("refused with code %" PRIu64 " at line %" PRIu64 ", field %" PRIu64 ", byte %" PRIu64 " of it\n", answer[0], answer[1],
               answer[2], answer[6]);
    else
        printf("refused with code %" PRIu64 " at line %" PRIu64 ", field %" PRIu64 "\n", answer[0], answer[1], answer[2]);
    return answer[0] == MUIWASH_DONE ? 0 : 1;
}
