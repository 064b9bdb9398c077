/* What the code of the program `load` calls beyond the C library: two functions of the kit's library os. The kit has them in C for x86-64;
 * these do the same on every machine. Nothing proves them, here or there. */
#include <errno.h>

int rattle_errno(void) { return errno; }
void rattle_set_errno(int error) { errno = error; }
