/* Every field NNNN-NN-NN, as a date of a header, is sound exactly if the C library's calendar has that day, in a year from 1583 on; and
 * where it is malformed, its place is that of the first digit with which no such day begins. */
#define _DEFAULT_SOURCE
#include "../include/muiwash.h"
#include <stdio.h>
#include <string.h>
#include <time.h>

enum { TWO_DIGITS = 100, YEARS = 10000, FIRST = 1583, DAY = 24 * 60 * 60 };
static char header[] = "10,\"a\",1,NNNN-NN-NN,1,2001-01-01,000000,1.0,\"A\"\r\n";
static char *const year_at = header + 9, *const month_at = header + 14, *const day_at = header + 17;

static void put(char *at, int width, int number) {
    for (; width > 0; number /= 10) at[--width] = (char)('0' + number % 10);
}
/* The place that is answered of a file that is this header alone: 5 for field 4, or 3 for the line that is missing after it. */
static int place_given(int *faults) {
    uint64_t answer[7];
    muiwash_check_file((const uint8_t *)header, sizeof header - 1, answer);
    int sound = answer[0] == 3 && answer[1] == 2 && answer[2] == 0, malformed = answer[0] == 5 && answer[1] == 1 && answer[2] == 4;
    *faults += sound ? answer[6] != 0 : !malformed || answer[6] == 0;
    return (int)answer[6];
}
/* The place that is due: 0 for a real day. */
static int place_due(int year, int month, int day, char real[TWO_DIGITS][TWO_DIGITS]) {
    if (real[month][day]) return 0;
    if (year < 1000) return 1;
    if (year < FIRST / 100 * 100) return 2;
    if (year < FIRST / 10 * 10) return 3;
    if (year < FIRST) return 4;
    if (month > 19) return 6;
    if (month < 1 || month > 12) return 7;
    for (int begun = day / 10 * 10, next = 0; next < 10; next++)
        if (real[month][begun + next]) return 10;
    return 9;
}
/* The days of a year, by month and day, and `today` on to the first day of the next. */
static void days_of(int year, time_t *today, char real[TWO_DIGITS][TWO_DIGITS]) {
    struct tm day;
    memset(real, 0, TWO_DIGITS * TWO_DIGITS);
    while (gmtime_r(today, &day)->tm_year + 1900 == year) {
        real[day.tm_mon + 1][day.tm_mday] = 1;
        *today += DAY;
    }
}
int main(void) {
    static char real[TWO_DIGITS][TWO_DIGITS];
    time_t today = timegm(&(struct tm){.tm_year = FIRST - 1900, .tm_mday = 1});
    int fields = 0, sound = 0, faults = 0;
    for (int year = 0; year < YEARS; year++) {
        put(year_at, 4, year);
        days_of(year, &today, real);
        for (int n = 0; n < TWO_DIGITS * TWO_DIGITS; n++, fields++) {
            int month = n / TWO_DIGITS, day = n % TWO_DIGITS;
            put(month_at, 2, month);
            put(day_at, 2, day);
            int given = place_given(&faults), due = place_due(year, month, day, real);
            sound += given == 0;
            if (given == due) continue;
            if (faults++ < 10) printf("FAILED: %.10s has place %d, and %d is due\n", year_at, given, due);
        }
    }
    printf("dates: %d fields, %d sound, %d faults\n", fields, sound, faults);
    return faults > 0;
}
