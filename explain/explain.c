/* What the loader answers, in a sentence: explain CHANGE checks a change file; explain HOLDING CHANGE takes it into a holding, as the
 * program `load` does. The status is 0 where it is sound or taken, 1 where it is refused, 2 where a file can't be read. The sentence is the
 * first line; below it, for a malformed field, byte.c shows the byte.
 *
 * The loader alone judges. Names, forms, keys and references are those of the one table (table.h, made by table.awk), and a field's bytes
 * are what muiwash_field finds. */
#include "../include/muiwash.h"
#include "byte.h"
#include <inttypes.h>
#include <stdio.h>
#include <stdlib.h>
#include <string.h>

#define COUNT(array) (sizeof(array) / sizeof *(array))
enum form { FORM_number, FORM_at_least1, FORM_decimal, FORM_date, FORM_time, FORM_text, FORM_change_type, FORM_xref_type, FORM_file_type,
            FORM_key_text };
enum role { ROLE_header_line, ROLE_body_line, ROLE_metadata_line, ROLE_trailer_line };
struct field { const char *name; enum form form; int width, more, filled; };
struct reference { const char *kind, *by; };
struct kind {
    const char *identifier;
    enum role role;
    size_t count;
    const struct field *fields;
    const char *key[4];
    struct reference to[3];
};
#include "table.h"

enum { PROGRAM_ROOM = 65536, SHOWN = 60 };
static const struct bytes nothing = {NULL, 0};
static const char sound_header[] = "10,\"-\",1,2000-01-01,1,2000-01-01,000000,1.0,\"A\"\r\n";
static const char sound_metadata[] = "29,\"-\",\"-\",\"-\",\"-\",\"-\",1,\"-\",\"-\",2000-01-01,\"-\",\"-\",2000-01-01,\"-\",\"-\"\r\n";

/* ---- the parts of a file or a holding */

/* A field's bytes; nothing where the loader finds none. */
static struct bytes field_of(struct bytes all, uint64_t line, uint64_t field) {
    uint64_t answer[5];
    muiwash_field(all.start, all.length, line, field, answer);
    if (answer[0] != MUIWASH_DONE) return nothing;
    return (struct bytes){all.start + answer[3], answer[4]};
}
/* The line of that number with its ending; no bytes where there is none. */
static struct bytes line_of(struct bytes all, uint64_t line) {
    size_t start = 0, end = 0;
    for (uint64_t n = 0; n < line; n++) {
        start = end;
        while (end < all.length && !(end > start && all.start[end - 1] == '\r' && all.start[end] == '\n')) end++;
        if (end < all.length) end++;
    }
    return (struct bytes){all.start + start, end - start};
}
/* How many fields a line has; 0 where its quotes are odd. */
static uint64_t fields_in(struct bytes all, uint64_t line) {
    uint64_t has = 0, lacks = 1;
    while (field_of(all, line, lacks).start) has = lacks, lacks *= 2;
    while (lacks - has > 1) {
        uint64_t between = has + (lacks - has) / 2;
        if (field_of(all, line, between).start) has = between; else lacks = between;
    }
    return has;
}
static int is(struct bytes b, const char *text) { return b.start && b.length == strlen(text) && !memcmp(b.start, text, b.length); }
static const struct kind *kind_of(struct bytes all, uint64_t line) {
    struct bytes identifier = field_of(all, line, 1);
    for (size_t i = 0; i < COUNT(kinds); i++)
        if (is(identifier, kinds[i].identifier)) return &kinds[i];
    return NULL;
}
/* The number of the field of that name, which the kind has. */
static uint64_t place_of(const struct kind *kind, const char *name) {
    uint64_t n = 1;
    while (strcmp(kind->fields[n - 1].name, name)) n++;
    return n;
}
static const char *identifier_of(enum role role) {
    size_t i = 0;
    while (kinds[i].role != role) i++;
    return kinds[i].identifier;
}

/* Whether a sound holding has the record of that kind and number; not so of an unsound one. */
static int is_held(struct bytes holding, const char *kind, struct bytes number) {
    uint64_t answer[5], value = 0;
    for (size_t i = 0; i < number.length; i++) value = 10 * value + (number.start[i] - '0');
    muiwash_find(holding.start, holding.length, strtoull(kind, NULL, 10), value, answer);
    return answer[0] == MUIWASH_DONE;
}
/* Two parts in one, which nobody frees. */
static struct bytes joined(struct bytes first, struct bytes second) {
    uint8_t *both = malloc(first.length + second.length + 1);
    if (!both) exit(2);
    if (first.length) memcpy(both, first.start, first.length);
    if (second.length) memcpy(both + first.length, second.start, second.length);
    return (struct bytes){both, first.length + second.length};
}
static struct bytes text(const char *text) { return (struct bytes){(const uint8_t *)text, strlen(text)}; }
/* The new holding, which nobody frees, with buffers of these lengths for it and for the undo; no bytes on a refusal. */
static struct bytes loaded(struct bytes holding, struct bytes file, size_t room, size_t undo_room, uint64_t answer[7]) {
    uint8_t *out = malloc(room), *undo = malloc(undo_room);
    if (!out || !undo) exit(2);
    muiwash_load(holding.start, holding.length, file.start, file.length, out, room, undo, undo_room, answer);
    free(undo);
    while (room > 0 && out[room - 1] == 0) room--;
    return (struct bytes){out, room};
}
/* The holding as it was before a body line of a sound file. */
static struct bytes before(struct bytes holding, struct bytes file, uint64_t line) {
    char ends[sizeof sound_metadata + 64];
    uint64_t answer[7];
    snprintf(ends, sizeof ends, "%s99,0,%" PRIu64 ",2000-01-01,000000\r\n", sound_metadata, line - 2);
    struct bytes front = joined((struct bytes){file.start, (size_t)(line_of(file, line).start - file.start)}, text(ends));
    return loaded(holding, front, MUIWASH_ROOM(holding.length, front.length), MUIWASH_UNDO_ROOM(holding.length, front.length), answer);
}

/* ---- words */

/* The bytes, or as many of them as are shown; no letter is cut. */
static void print(struct bytes b) {
    size_t shown = 0;
    while (shown < b.length && shown + step(b, shown) <= SHOWN) shown += step(b, shown);
    print_part(b, 0, shown);
    if (shown < b.length) printf("..");
}
/* "USRN 500", by name. */
static void print_named(struct bytes all, uint64_t line, const struct kind *kind, const char *name) {
    printf("%s ", name);
    print(field_of(all, line, place_of(kind, name)));
}
static void print_key(struct bytes all, uint64_t line, const struct kind *kind) {
    for (const char *const *name = kind->key; *name; name++) {
        if (name != kind->key) printf(", ");
        print_named(all, line, kind, *name);
    }
}
/* What a record refers to that isn't in that holding; its own key doesn't count, so where all are there, all are named. */
static void print_unmet(struct bytes all, uint64_t line, const struct kind *kind, struct bytes holding) {
    int told = 0;
    for (int all_held = 0; !told && all_held < 2; all_held++)
        for (const struct reference *to = kind->to; to->kind; to++) {
            struct bytes by = field_of(all, line, place_of(kind, to->by));
            if (!by.length || (!all_held && is_held(holding, to->kind, by))) continue;
            printf(told++ ? ", or none of kind %s for its " : "no other record of kind %s is held for its ", to->kind);
            print_named(all, line, kind, to->by);
        }
}
/* "1 digit", "4 digits". */
static void print_many(int many, const char *of) { printf("%d %s%s", many, of, many == 1 ? "" : "s"); }
static void print_form(const struct field *field) {
    switch (field->form) {
    case FORM_number: printf("is not a number of at most "), print_many(field->width, "digit"); break;
    case FORM_at_least1: printf("is not a number from 1 on of at most "), print_many(field->width, "digit"); break;
    case FORM_decimal:
        printf("is not a number of at most "), print_many(field->width, "digit"), printf(", a point and %d more", field->more);
        break;
    case FORM_date: printf("is not a day (CCYY-MM-DD, from 1583 on)"); break;
    case FORM_time: printf("is not a time (HHMMSS)"); break;
    case FORM_text: printf("is not a text of at most "), print_many(field->width, "character"), printf(" of UTF-8 within quotes"); break;
    case FORM_change_type: printf("is not \"I\", \"U\" or \"D\""); break;
    case FORM_xref_type: printf("is neither 1 nor 2"); break;
    case FORM_file_type: printf("is not a code of document 002's table 3, \"A\" to \"H\""); break;
    case FORM_key_text: printf("is not four digits, %c and nine digits within quotes", field->width); break;
    }
}

/* ---- a sentence for each refusal, begun by whoever says which line it is */

static void wrong_ending(struct bytes line) {
    int ended = line.length > 1 && line.start[line.length - 2] == '\r' && line.start[line.length - 1] == '\n';
    if (ended) printf("another CR or LF stands in it");
    else if (memchr(line.start, '\n', line.length)) printf("LF alone ends it, not CR LF");
    else printf("no CR LF ends it");
}
static void out_of_place(struct bytes file, uint64_t line) {
    const struct kind *previous = kind_of(file, line - 1);
    const char *header = identifier_of(ROLE_header_line), *metadata = identifier_of(ROLE_metadata_line);
    const char *trailer = identifier_of(ROLE_trailer_line);
    int behind = previous ? (int)previous->role : -1, ended = !line_of(file, line).length;
    if (line == 1) printf("the first line is not the header, %s", header);
    else if (ended && behind != ROLE_metadata_line) printf("the file ends before its metadata, %s", metadata);
    else if (ended) printf("the file ends before its trailer, %s", trailer);
    else if (behind == ROLE_trailer_line) printf("it comes after the trailer, %s", trailer);
    else if (behind == ROLE_metadata_line) printf("only the trailer, %s, comes after the metadata, %s", trailer, metadata);
    else if (!memcmp(line_of(file, line).start, header, strlen(header))) printf("a second header, %s", header);
    else printf("the trailer, %s, doesn't come straight after the metadata, %s", trailer, metadata);
}
static void wrong_count(struct bytes file, uint64_t line) {
    uint64_t has = fields_in(file, line);
    const struct kind *kind = kind_of(file, line);
    if (!has || !kind) printf("its quotes are odd in number, so that its fields can't be told apart");
    else printf("it has %" PRIu64 " fields, and a line of kind %s has %zu", has, kind->identifier, kind->count);
}
/* What is wrong with the field, and below it at which byte. Behind a header, and a trailer behind metadata too, the line is in place. */
static void malformed(struct bytes file, uint64_t line, const struct field *field, uint64_t number, uint64_t place) {
    struct bytes found = field_of(file, line, number), front = line == 1 ? nothing : line_of(file, 1);
    if (field->filled && (!found.length || is(found, "\"\""))) printf("it is empty, and must be filled");
    else if (!found.length) printf("it is bare, and an empty text is \"\"");
    else print(found), printf(" "), print_form(field);
    if (kind_of(file, line)->role == ROLE_trailer_line) front = joined(front, text(sound_metadata));
    show_byte(front, line_of(file, line), number, place);
}
static void ends_before_start(struct bytes file, uint64_t line, const struct kind *kind, uint64_t number) {
    print(field_of(file, line, number));
    printf(" is before ");
    print_named(file, line, kind, start_date);
}
static void unmet(struct bytes holding, struct bytes file, uint64_t line, const struct kind *kind) {
    if (is(field_of(file, line, 2), "\"D\"")) {
        printf("it deletes ");
        print_key(file, line, kind);
        printf(" of kind %s, to which a held record refers", kind->identifier);
    } else {
        print_unmet(file, line, kind, before(holding, file, line));
    }
}
/* A step that its key doesn't allow. */
static void wrong_key(struct bytes file, uint64_t line, const struct kind *kind, const char *held) {
    struct bytes change = field_of(file, line, 2);
    printf("it %s ", is(change, "\"I\"") ? "inserts" : is(change, "\"U\"") ? "updates" : "deletes");
    print_key(file, line, kind);
    printf(" of kind %s, which %s", kind->identifier, held);
}
static void unknown(struct bytes identifier) {
    if (identifier.length) print(identifier); else printf(identifier.start ? "an empty one" : "what stands here");
    printf(" is no identifier that is known");
}
/* The sentence of a refusal at a line of a file, after the line's number. */
static void sentence(struct bytes holding, struct bytes file, const uint64_t answer[7]) {
    uint64_t line = answer[1], number = answer[2];
    const struct kind *kind = kind_of(file, line);
    /* Every kind begins with its identifier, an unknown one too. */
    const struct field *field = number ? &(kind ? kind : kinds)->fields[number - 1] : NULL;
    if (field) printf(", field %" PRIu64 " %s", number, field->name);
    printf(": ");
    switch (answer[0]) {
    case MUIWASH_LINE_ENDING: wrong_ending(line_of(file, line)); break;
    case MUIWASH_IDENTIFIER: unknown(field_of(file, line, 1)); break;
    case MUIWASH_OUT_OF_PLACE: out_of_place(file, line); break;
    case MUIWASH_FIELD_COUNT: wrong_count(file, line); break;
    case MUIWASH_MALFORMED: malformed(file, line, field, number, answer[6]); break;
    case MUIWASH_END_BEFORE_START: ends_before_start(file, line, kind, number); break;
    case MUIWASH_PRO_ORDER: print(field_of(file, line, number)), printf(", and %" PRIu64 " is due", line - 1); break;
    case MUIWASH_RECORD_COUNT: print(field_of(file, line, number)), printf(", and there are %" PRIu64 " body lines", line - 3); break;
    case MUIWASH_TOO_MANY_LINES: printf("a 4,097th body line, and a file has at most 4,096"); break;
    case MUIWASH_ALREADY_HELD: wrong_key(file, line, kind, "is held already"); break;
    case MUIWASH_ABSENT: wrong_key(file, line, kind, "isn't held"); break;
    case MUIWASH_REFERENCE_UNMET: unmet(holding, file, line, kind); break;
    case MUIWASH_HOLDING_TOO_LONG: printf("after it the holding would be longer than %d bytes", PROGRAM_ROOM); break;
    case MUIWASH_TOO_MANY_RECORDS: printf("an 8,193rd record, and a holding has at most 8,192"); break;
    }
}
/* Keys are tested before references, over all lines: a faulty line at the end hides the fault of a reference, and no other. */
static int key_is_wrong(struct bytes holding, uint64_t line) {
    struct bytes longer = joined(holding, text("-"));
    uint64_t answer[3];
    muiwash_check_holding(longer.start, longer.length, answer);
    return answer[1] == line;
}
/* What is wrong with a line of a holding: it is put behind a header, and check_file asked; if that finds nothing, it is its place. */
static void unsound(struct bytes holding, uint64_t line) {
    struct bytes file = joined(text(sound_header), line_of(holding, line));
    const struct kind *kind = kind_of(file, 2);
    uint64_t answer[7];
    char number[24];
    muiwash_check_file(file.start, file.length, answer);
    snprintf(number, sizeof number, "%" PRIu64, line);
    int change_type = answer[0] == MUIWASH_MALFORMED && answer[2] == 2; /* in a file U and D could stand there too */
    if (kind && kind->role != ROLE_body_line) printf(": a line of kind %s is none of a holding", kind->identifier);
    else if (answer[1] == 2 && answer[0] != MUIWASH_PRO_ORDER && !change_type) sentence(nothing, file, answer);
    else if (!is(field_of(file, 2, 2), "\"I\"")) printf(", field 2 %s: a holding has \"I\" alone", kind->fields[1].name);
    else if (!is(field_of(file, 2, 3), number)) {
        printf(", field 3 %s: ", kind->fields[2].name), print(field_of(file, 2, 3)), printf(", and %s is due", number);
    } else if (line > 8192) sentence(nothing, file, (const uint64_t[7]){MUIWASH_TOO_MANY_RECORDS, 2});
    else if (key_is_wrong(holding, line)) printf(": its key isn't above that of the line before it");
    else printf(": "), print_unmet(file, 2, kind, nothing);
}

/* ---- the program */

static struct bytes read_file(const char *path) {
    FILE *f = fopen(path, "rb");
    uint8_t *all = NULL;
    size_t length = 0, got = 1;
    while (f && got) {
        all = realloc(all, length + PROGRAM_ROOM);
        if (!all) exit(2);
        length += got = fread(all + length, 1, PROGRAM_ROOM, f);
    }
    if (!f || ferror(f) || fclose(f)) {
        printf("refused, code %d: %s can't be read\n", MUIWASH_UNREADABLE, path);
        exit(2);
    }
    return (struct bytes){all, length};
}
static void note_length(const char *path, struct bytes all) {
    if (all.length <= PROGRAM_ROOM) return;
    printf("(the program load answers %d: %s has %zu bytes, and it takes %d at most)\n", MUIWASH_UNREADABLE, path, all.length,
           PROGRAM_ROOM);
}
/* The load's answer, with buffers as long as the program's, or as long as is always enough where an input is too long for the program. */
static void take(struct bytes holding, struct bytes file, uint64_t answer[7]) {
    size_t room = PROGRAM_ROOM, undo_room = PROGRAM_ROOM;
    if (holding.length > PROGRAM_ROOM || file.length > PROGRAM_ROOM) {
        room = MUIWASH_ROOM(holding.length, file.length), undo_room = MUIWASH_UNDO_ROOM(holding.length, file.length);
    }
    loaded(holding, file, room, undo_room, answer);
}

int main(int argc, char **argv) {
    uint64_t answer[7];
    if (argc != 2 && argc != 3) {
        fprintf(stderr, "explain CHANGE, or explain HOLDING CHANGE\n");
        return 2;
    }
    struct bytes holding = argc == 3 ? read_file(argv[1]) : nothing, file = read_file(argv[argc - 1]);
    if (argc == 3) take(holding, file, answer); else muiwash_check_file(file.start, file.length, answer);
    if (answer[0] == MUIWASH_DONE) {
        printf("%s: %" PRIu64 " inserts, %" PRIu64 " updates, %" PRIu64 " deletes", argc == 3 ? "taken" : "sound", answer[3], answer[4],
               answer[5]);
    } else if (answer[0] == MUIWASH_UNDO_TOO_LONG) {
        printf("refused, code %d: the file's undo would be longer than %d bytes", MUIWASH_UNDO_TOO_LONG, PROGRAM_ROOM);
    } else {
        int held = answer[0] == MUIWASH_UNSOUND_HOLDING;
        printf("refused, code %" PRIu64 ": %sline %" PRIu64, answer[0], held ? "the holding, " : "", answer[1]);
        if (held) unsound(holding, answer[1]); else sentence(holding, file, answer);
    }
    printf("\n");
    for (int i = 1; i < argc; i++) note_length(argv[i], i == argc - 1 ? file : holding);
    return answer[0] != MUIWASH_DONE;
}
