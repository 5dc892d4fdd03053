/* Times sealing by the library beside sealing in plain C, and says the ratio. Each figure is the best of several runs. */
#include "plain.h"
#include "vurshade.h"

#include <stdio.h>
#include <string.h>
#include <time.h>

enum { RUNS = 9, BYTES_A_RUN = 400000 };

static uint8_t text[VURSHADE_MAX_LENGTH], ours[VURSHADE_MAX_LENGTH + 8], theirs[VURSHADE_MAX_LENGTH + 8];
static uint8_t key[32], nonce[12];
static const uint8_t ad[1] = {1};

static double seconds(void)
{
    struct timespec t;
    clock_gettime(CLOCK_MONOTONIC, &t);
    return (double)t.tv_sec + 1e-9 * (double)t.tv_nsec;
}

static void library(size_t key_len, size_t len)
{
    vurshade_seal(key, key_len, nonce, sizeof nonce, ad, sizeof ad, text, len, ours, len + 8);
}

static void plain(size_t key_len, size_t len)
{
    plain_seal(key, key_len, nonce, ad, sizeof ad, text, len, theirs);
}

/* Nanoseconds that one call takes. */
static double time_of(void (*seal)(size_t, size_t), size_t key_len, size_t len)
{
    int calls = (int)(BYTES_A_RUN / (len + 100)) + 1;
    double best = 1e9;
    for (int i = 0; i < RUNS; i++) {
        double began = seconds();
        for (int j = 0; j < calls; j++)
            seal(key_len, len);
        double took = (seconds() - began) / calls;
        if (took < best)
            best = took;
    }
    return best * 1e9;
}

/* One line of figures, or 0 if the two do not agree. */
static int compared(size_t key_len, size_t len)
{
    double a = time_of(library, key_len, len), b = time_of(plain, key_len, len);
    if (memcmp(ours, theirs, len + 8) != 0) {
        printf("key of %zu bits, %zu bytes: the library and plain C do not agree\n", 8 * key_len, len);
        return 0;
    }
    printf("key of %zu bits, %5zu bytes: library %9.0f ns, plain C %9.0f ns, ratio %.2f", 8 * key_len, len, a, b, a / b);
    if (len > 0)
        printf(", %.1f ns a byte", a / (double)len);
    printf("\n");
    return 1;
}

int main(void)
{
    static const size_t lens[] = {0, 16, 64, 256, 1024, 4096, 16384, 65536};
    for (size_t i = 0; i < sizeof text; i++)
        text[i] = (uint8_t)(7 * i);
    for (size_t i = 0; i < sizeof key; i++)
        key[i] = (uint8_t)i;
    for (size_t key_len = 16; key_len <= 32; key_len += 8)
        for (size_t i = 0; i < sizeof lens / sizeof *lens; i++)
            if (!compared(key_len, lens[i]))
                return 1;
    return 0;
}
