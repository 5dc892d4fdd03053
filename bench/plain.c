/* Thirty-two rounds at a time on four variables, with the taps cut from pairs of words. */
#include "plain.h"

#include <string.h>

typedef struct {
    uint32_t s[4];
    uint32_t key[8];
    size_t words;
    unsigned long_steps;
} cipher;

enum { SHORT_STEPS = 5 };

static inline uint32_t cut(uint32_t low, uint32_t high, unsigned from)
{
    return (uint32_t)(((uint64_t)high << 32 | low) >> from);
}

static inline uint32_t mix(uint32_t a, uint32_t b, uint32_t c, uint32_t d, uint32_t k)
{
    return a ^ cut(b, c, 15) ^ ~(cut(c, d, 6) & cut(c, d, 21)) ^ cut(c, d, 27) ^ k;
}

static inline size_t next(const cipher *c, size_t at)
{
    return at + 1 < c->words ? at + 1 : 0;
}

/* Puts the frame in, and does `steps` times 128 rounds. */
static inline void run(cipher *c, uint32_t frame, unsigned steps)
{
    uint32_t s = c->s[0], t = c->s[1] ^ frame << 4, u = c->s[2], v = c->s[3];
    size_t at = 0;
    for (unsigned i = 0; i < steps; i++) {
        s = mix(s, t, u, v, c->key[at]);
        at = next(c, at);
        t = mix(t, u, v, s, c->key[at]);
        at = next(c, at);
        u = mix(u, v, s, t, c->key[at]);
        at = next(c, at);
        v = mix(v, s, t, u, c->key[at]);
        at = next(c, at);
    }
    c->s[0] = s;
    c->s[1] = t;
    c->s[2] = u;
    c->s[3] = v;
}

static void begin(cipher *c, const uint8_t *key, size_t key_len, const uint8_t *nonce)
{
    memset(c, 0, sizeof *c);
    c->words = key_len / 4;
    c->long_steps = 6 + (unsigned)c->words / 2;
    memcpy(c->key, key, key_len);
    run(c, 0, c->long_steps);
    for (int i = 0; i < 3; i++) {
        uint32_t word;
        memcpy(&word, nonce + 4 * i, 4);
        run(c, 1, SHORT_STEPS);
        c->s[3] ^= word;
    }
}

/* Puts a block of 1 to 4 bytes in, marks it if it is not full, and writes it sealed where `out` is given. */
static inline void block(cipher *c, uint32_t frame, unsigned steps, const uint8_t *in, size_t len, uint8_t *out)
{
    uint32_t word = 0;
    memcpy(&word, in, len);
    run(c, frame, steps);
    c->s[3] ^= word;
    if (len < 4)
        c->s[1] ^= (uint32_t)len;
    word ^= c->s[2];
    if (out)
        memcpy(out, &word, len);
}

static void half_tag(cipher *c, unsigned steps, uint8_t *out)
{
    run(c, 7, steps);
    memcpy(out, &c->s[2], 4);
}

void plain_seal(const uint8_t *key, size_t key_len, const uint8_t *nonce, const uint8_t *ad, size_t ad_len,
                const uint8_t *text, size_t text_len, uint8_t *out)
{
    cipher c;
    size_t at;
    begin(&c, key, key_len, nonce);
    for (at = 0; at + 4 <= ad_len; at += 4)
        block(&c, 3, SHORT_STEPS, ad + at, 4, NULL);
    if (at < ad_len)
        block(&c, 3, SHORT_STEPS, ad + at, ad_len - at, NULL);
    for (at = 0; at + 4 <= text_len; at += 4)
        block(&c, 5, c.long_steps, text + at, 4, out + at);
    if (at < text_len)
        block(&c, 5, c.long_steps, text + at, text_len - at, out + at);
    half_tag(&c, c.long_steps, out + text_len);
    half_tag(&c, SHORT_STEPS, out + text_len + 4);
}
