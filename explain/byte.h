/* Where a malformed field goes wrong, shown under its line. */
#ifndef BYTE_H
#define BYTE_H

#include <stddef.h>
#include <stdint.h>

struct bytes { const uint8_t *start; size_t length; };

/* How many bytes a letter of UTF-8 takes at that place; 1 where none begins that is printed as it is. */
size_t step(struct bytes all, size_t at);
/* Prints the bytes from one place to another: letters as they are, and \xHH for a byte that is in none or in a control. */
void print_part(struct bytes all, size_t from, size_t to);

/* Prints, from a new line on and without a last ending, a line with a mark under the byte at that place of that field, and what could have
 * stood there. The line has its CR LF; `front` are sound lines behind which a file could have it. */
void show_byte(struct bytes front, struct bytes line, uint64_t field, uint64_t place);

#endif
