/* Randomness from the system's own source, getrandom(2). */
#ifndef HOST_ENTROPY_H
#define HOST_ENTROPY_H

#include <stdbool.h>
#include <stddef.h>
#include <stdint.h>

/* Fills n bytes; false where the system gives none, and then nothing may be made of them. */
bool entropy_fill(uint8_t *bytes, size_t n);

#endif
