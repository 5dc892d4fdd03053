/* A small generator of pseudo-random numbers; the same seed gives the same
 * sequence on every machine. */
#ifndef RANDOM_H
#define RANDOM_H

#include <stddef.h>
#include <stdint.h>

void random_start(uint64_t seed);

/* A number from 0 to bound - 1; bound is above 0. */
size_t random_below(size_t bound);

void random_fill(uint8_t *bytes, size_t len);

#endif
