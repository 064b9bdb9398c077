/* The loader's side of the benchmark, and its floor: driver OPERATION FOLDER [RUNS], on FOLDER's holding.csv and change.csv.
 *   none      makes no call, so that what a run costs besides can be taken off
 *   check_file, check_holding
 *   load      the one call that leaves the new holding and the undo
 *   floor     copies both files once with memcpy, and looks at each byte once, for the CR LFs, with memchr
 *   new       as load; leaves FOLDER/new-driver.csv and FOLDER/undo-driver.csv, and fails unless the undo gives the old holding back
 * With RUNS the call is made so many times, and the median time in microseconds printed. */
#define _POSIX_C_SOURCE 200809L
#include "../include/muiwash.h"
#include <stdio.h>
#include <stdlib.h>
#include <string.h>
#include <time.h>

struct bytes { uint8_t *start; size_t length; };
static struct bytes holding, change, out, undo;
static uint64_t answer[7];
static volatile size_t lines;

static void fail(const char *what) {
    fprintf(stderr, "driver: %s\n", what);
    exit(1);
}
static struct bytes lent(size_t length) {
    struct bytes b = {malloc(length), length};
    if (!b.start) fail("no memory");
    memset(b.start, 1, length);
    return b;
}
static struct bytes read_file(const char *folder, const char *name) {
    char path[4096];
    snprintf(path, sizeof path, "%s/%s", folder, name);
    FILE *f = fopen(path, "rb");
    if (!f || fseek(f, 0, SEEK_END)) fail(path);
    struct bytes b = lent((size_t)ftell(f));
    rewind(f);
    if (fread(b.start, 1, b.length, f) != b.length || fclose(f)) fail(path);
    return b;
}
static size_t crlfs(struct bytes b) {
    size_t found = 0;
    const uint8_t *at = b.start, *end = b.start + b.length;
    while (at < end && (at = memchr(at, '\r', (size_t)(end - at)))) {
        at++;
        if (at < end && *at == '\n') found++;
    }
    return found;
}

static void none(void) {}
static void check_file(void) { muiwash_check_file(change.start, change.length, answer); }
static void check_holding(void) { muiwash_check_holding(holding.start, holding.length, answer); }
static void load(void) {
    muiwash_load(holding.start, holding.length, change.start, change.length, out.start, out.length, undo.start, undo.length, answer);
}
static void touch_all(void) {
    memcpy(out.start, holding.start, holding.length);
    memcpy(out.start + holding.length, change.start, change.length);
    lines = crlfs(holding) + crlfs(change);
}
/* What stands before the zeros. */
static struct bytes written(struct bytes b) {
    while (b.length > 0 && b.start[b.length - 1] == 0) b.length--;
    return b;
}
static void leave(const char *folder, const char *name, struct bytes b) {
    char path[4096];
    snprintf(path, sizeof path, "%s/%s", folder, name);
    FILE *f = fopen(path, "wb");
    if (!f || fwrite(b.start, 1, b.length, f) != b.length || fclose(f)) fail(path);
}
static void new_holding(const char *folder) {
    load();
    if (answer[0]) fail("refused");
    struct bytes taken = written(out), file = written(undo), back = lent(MUIWASH_ROOM(taken.length, file.length));
    struct bytes again = lent(MUIWASH_BACK_ROOM(change.length, file.length));
    leave(folder, "new-driver.csv", taken);
    leave(folder, "undo-driver.csv", file);
    muiwash_load(taken.start, taken.length, file.start, file.length, back.start, back.length, again.start, again.length, answer);
    back = written(back);
    if (answer[0] || back.length != holding.length || memcmp(back.start, holding.start, back.length)) fail("the undo isn't one");
}

static double now(void) {
    struct timespec t;
    clock_gettime(CLOCK_PROCESS_CPUTIME_ID, &t);
    return (double)t.tv_sec * 1e6 + (double)t.tv_nsec / 1e3;
}
static int by_size(const void *a, const void *b) {
    double x = *(const double *)a, y = *(const double *)b;
    return (x > y) - (x < y);
}
static void measure(void (*operation)(void), int runs, int shown) {
    double *times = calloc((size_t)runs, sizeof *times);
    for (int i = 0; i < runs; i++) {
        double began = now();
        operation();
        times[i] = now() - began;
    }
    qsort(times, (size_t)runs, sizeof *times, by_size);
    if (shown) printf("%.1f\n", times[runs / 2]);
    if (answer[0]) fail("refused");
}

int main(int argc, char **argv) {
    static const struct { const char *name; void (*run)(void); } operations[] = {
        {"none", none}, {"check_file", check_file}, {"check_holding", check_holding}, {"load", load}, {"floor", touch_all}};
    if (argc < 3) fail("driver OPERATION FOLDER [RUNS]");
    holding = read_file(argv[2], "holding.csv"), change = read_file(argv[2], "change.csv");
    out = lent(MUIWASH_ROOM(holding.length, change.length)), undo = lent(MUIWASH_UNDO_ROOM(holding.length, change.length));
    if (!strcmp(argv[1], "new")) return new_holding(argv[2]), 0;
    for (size_t i = 0; i < sizeof operations / sizeof *operations; i++)
        if (!strcmp(argv[1], operations[i].name)) return measure(operations[i].run, argc > 3 ? atoi(argv[3]) : 1, argc > 3), 0;
    fail("no such operation");
}
