#include "random.h"

static uint64_t state;

void random_start(uint64_t seed)
{
    state = seed;
}

/* splitmix64 */
static uint64_t next(void)
{
    uint64_t z = state += 0x9E3779B97F4A7C15u;
    z = (z ^ z >> 30) * 0xBF58476D1CE4E5B9u;
    z = (z ^ z >> 27) * 0x94D049BB133111EBu;
    return z ^ z >> 31;
}

size_t random_below(size_t bound)
{
    return (size_t)(next() % bound);
}

void random_fill(uint8_t *bytes, size_t len)
{
    uint64_t word = 0;
    for (size_t i = 0; i < len; i++) {
        word = i % 8 == 0 ? next() : word >> 8;
        bytes[i] = (uint8_t)word;
    }
}
