/* Muiwash for C and C++: an address holding brought up to date from change files of the Scottish Data Transfer Format 1.0.
 *
 * A file is taken whole or it isn't taken, and a file that was taken can be handed back. The six functions below are proved: for all
 * bytes and lengths they end, touch no byte beyond what they are lent, and leave exactly what is said here in every buffer and answer.
 * Which lengths are 'always enough' is proved too. What is said of stack is measured, and not proved.
 *
 * What is lent. Every buffer is a pointer and a length in bytes; any length is met, 0 too, and then the pointer may be NULL. A buffer
 *   without const is written: each of its bytes, in every case. `answer` is an array of as many numbers as its parameter says; it has no
 *   length of its own, so an array that is shorter is the caller's fault. What is written must not overlap anything else that is lent to
 *   the same call; `holding` and `file` are only read, and may overlap each other.
 * Numbers. Every answer begins with code, line, field. Code 0 (MUIWASH_DONE) is success, any other a refusal. Lines and fields count from
 *   1, and 0 means none. On a refusal every output is all zeros, and all numbers after the first three are 0 but for the place.
 * Place. The last number of check_file and load: for a malformed field (5) the place, from 1 and with its quotes counted, of the
 *   first byte of the field at which no sound field could go on, or one past the field's end where it stops too soon. With the start that
 *   muiwash_field gives for that line and field, that byte is file[start + place - 1]. The place is 0 for every code but 5.
 * Texts. A text is well-formed UTF-8 (RFC 3629), in a file and in a holding, and its width counts characters: any other is malformed.
 *   Places, starts and lengths count bytes.
 * Memory. Nothing is allocated, kept or freed, and nothing is read or written but what is lent. A call needs up to 256 KiB of stack: give
 *   a thread of your own that much and some for itself.
 * Threads. There is no state: any number of threads may call at once, so long as no one writes what another call was lent.
 * Machines. `bin/archive MACHINE ..` proves these functions and compiles what is proved for each machine: libmuiwash.a is code for Linux,
 *   position independent, and muiwash.wasm a module for a browser or for node. What each needs of C, and the stack as measured:
 *   x86_64   libmuiwash.a needs memcpy and memset, and a call takes 244 KiB of stack;
 *   aarch64  libmuiwash.a needs memcpy and memset, and a call takes 244 KiB of stack;
 *   wasm32   muiwash.wasm needs nothing, and a call takes 242 KiB of stack, of 512 KiB that are the module's own: one call at a time.
 * Lengths. A length is 64 bits on every machine, on wasm32 too, where a pointer is 32 bits: from JavaScript a pointer is a number and a
 *   length a BigInt. muiwash.mjs passes them so.
 */
#ifndef MUIWASH_H
#define MUIWASH_H

#include <stddef.h>
#include <stdint.h>

#ifdef __cplusplus
extern "C" {
#endif

/* The codes; behind each the line and field that come with it. */
enum muiwash_code {
    MUIWASH_DONE = 0,               /* 0, 0 */
    MUIWASH_LINE_ENDING = 1,        /* a line doesn't end in CR LF, or has another CR or LF in it: line, 0 */
    MUIWASH_IDENTIFIER = 2,         /* a record identifier is unknown: line, 1 */
    MUIWASH_OUT_OF_PLACE = 3,       /* header, metadata or trailer is missing or out of place: line, 0 */
    MUIWASH_FIELD_COUNT = 4,        /* wrong number of fields: line, 0 */
    MUIWASH_MALFORMED = 5,          /* a field is malformed: line, the lowest such field; and the place in it */
    MUIWASH_END_BEFORE_START = 6,   /* END_DATE is before START_DATE: line, END_DATE's field */
    MUIWASH_PRO_ORDER = 7,          /* PRO_ORDER isn't the running number: line, 3 */
    MUIWASH_RECORD_COUNT = 8,       /* RECORD_COUNT isn't the number of body lines: line, its field */
    MUIWASH_TOO_MANY_LINES = 9,     /* a 4,097th body line: line, 0 */
    MUIWASH_ALREADY_HELD = 10,      /* insert of a key that is held: line, 0 */
    MUIWASH_ABSENT = 11,            /* update, delete or enquiry of a key that isn't held: line (0 for an enquiry), 0 */
    MUIWASH_REFERENCE_UNMET = 12,   /* a reference is unmet after this step: line, 0 */
    MUIWASH_HOLDING_TOO_LONG = 13,  /* the holding is longer than its buffer, before the first step: 0, 0; after this one: line, 0 */
    MUIWASH_UNSOUND_HOLDING = 14,   /* the holding itself is unsound: its line, 0 */
    MUIWASH_KIND_NOT_ASKED = 15,    /* enquiry for a kind other than 11 or 21: 0, 0 */
    MUIWASH_TOO_MANY_RECORDS = 16,  /* an 8,193rd record: line, 0 */
    MUIWASH_UNDO_TOO_LONG = 17,     /* the undo is longer than its buffer: 0, 0 */
    MUIWASH_UNREADABLE = 18,        /* of the program `load` alone: no function here gives it */
    MUIWASH_NO_SUCH_PART = 19       /* no such line or field: 0, 0 */
};

/* How long a buffer is always enough, in bytes. Of the lengths of a holding and of a change file: for the new holding, before the first
 * step and after each; and for the undo. Of the lengths of a file that was taken and of its undo, which is now handed back: for the undo
 * that this load writes, the undo of the undo. */
#define MUIWASH_ROOM(holding_len, file_len) ((holding_len) + (file_len) + 16384)
#define MUIWASH_UNDO_ROOM(holding_len, file_len) ((holding_len) + 2 * (file_len))
#define MUIWASH_BACK_ROOM(file_len, undo_len) ((file_len) + (undo_len))

/* Checks a whole change file.
 * answer: code, line, field, the body lines with CHANGE_TYPE I, U and D, and the place. Codes 0 to 9. */
void muiwash_check_file(const uint8_t *file, uint64_t file_len, uint64_t answer[7]);

/* Checks a whole holding; no bytes at all is a sound one.
 * answer: code, line, field. Codes 0 and 14. */
void muiwash_check_holding(const uint8_t *holding, uint64_t holding_len, uint64_t answer[3]);

/* Takes a change file into a holding, and writes the file's undo: a change file in the same layout that, loaded into the new holding,
 * gives this one back byte for byte.
 * out: the new holding, then zeros to out_len (no holding has a zero byte, so it ends where the zeros begin); on a refusal all zeros.
 * out_len: the holding must fit it before the first step and after each (else 13); MUIWASH_ROOM(holding_len, file_len) is always enough.
 * undo: the undo, then zeros to undo_len (no file has a zero byte in it); on a refusal all zeros.
 * undo_len: the undo must fit it (else 17, which comes last); MUIWASH_UNDO_ROOM(holding_len, file_len) is always enough, and where `file`
 *   is an undo that is handed back, so is MUIWASH_BACK_ROOM of the length of the file that it undoes and of its own.
 * answer: code, line, field, the inserts, updates and deletes made, and the place. Codes 0 to 14, 16 and 17. */
void muiwash_load(const uint8_t *holding, uint64_t holding_len, const uint8_t *file, uint64_t file_len, uint8_t *out, uint64_t out_len,
                  uint8_t *undo, uint64_t undo_len, uint64_t answer[7]);

/* Finds the line of a street (kind 11) or a BLPU (kind 21) by its USRN or UPRN.
 * answer: code, line, field, and where the line stands in `holding`, without CR LF: its start and its length. Codes 0, 11, 14 and 15. */
void muiwash_find(const uint8_t *holding, uint64_t holding_len, uint64_t kind, uint64_t number, uint64_t answer[5]);

/* The record of a street or a BLPU that would be in force if the file were taken: the last body line that names it, unless that is a
 * delete (11); where none names it, the held line. The file is checked; its steps aren't judged.
 * answer: code, line, field, then 0 if the line stands in `holding` or 1 if it stands in `file`, its start there and its length, without
 * CR LF. Codes 0 to 9, 11, 14 and 15. */
void muiwash_in_force(const uint8_t *holding, uint64_t holding_len, const uint8_t *file, uint64_t file_len, uint64_t kind, uint64_t number,
                      uint64_t answer[6]);

/* One field of a line of any bytes, both counted from 1; neither the line nor the field is judged.
 * answer: code, line, field, and where the field stands in `bytes`, with its quotes: its start and its length. Codes 0 and 19. */
void muiwash_field(const uint8_t *bytes, uint64_t bytes_len, uint64_t line, uint64_t field, uint64_t answer[5]);

#ifdef __cplusplus
}
#endif

#endif
