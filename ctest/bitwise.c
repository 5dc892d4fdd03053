#include "bitwise.h"

typedef struct {
    unsigned s[128]; /* each 0 or 1 */
    const uint8_t *key;
    size_t key_bits;
} bit_cipher;

static unsigned bit_of(const uint8_t *bytes, size_t i)
{
    return bytes[i / 8] >> (i % 8) & 1u;
}

static void round_of(bit_cipher *c, size_t index)
{
    unsigned *s = c->s;
    unsigned nand = 1u ^ (s[70] & s[85]);
    unsigned f = s[0] ^ s[47] ^ nand ^ s[91]
                 ^ bit_of(c->key, index % c->key_bits);
    for (int j = 0; j < 127; j++)
        s[j] = s[j + 1];
    s[127] = f;
}

static void run_of(bit_cipher *c, size_t rounds)
{
    for (size_t index = 0; index < rounds; index++)
        round_of(c, index);
}

static void short_run(bit_cipher *c)
{
    run_of(c, 640);
}

static void long_run(bit_cipher *c)
{
    if (c->key_bits == 128)
        run_of(c, 1024);
    if (c->key_bits == 192)
        run_of(c, 1152);
    if (c->key_bits == 256)
        run_of(c, 1280);
}

static void frame(bit_cipher *c, unsigned v)
{
    c->s[36] ^= v & 1u;
    c->s[37] ^= v >> 1 & 1u;
    c->s[38] ^= v >> 2 & 1u;
}

static void put_bits(bit_cipher *c, const uint8_t *bytes, size_t count)
{
    for (size_t i = 0; i < 8 * count; i++)
        c->s[96 + i] ^= bit_of(bytes, i);
}

static void mark(bit_cipher *c, size_t count)
{
    c->s[32] ^= count & 1u;
    c->s[33] ^= count >> 1 & 1u;
}

/* Writes the state from s64 upward as bytes. */
static void state_bytes(const bit_cipher *c, size_t count, uint8_t *bytes)
{
    for (size_t i = 0; i < count; i++)
        bytes[i] = 0;
    for (size_t i = 0; i < 8 * count; i++)
        bytes[i / 8] |= (uint8_t)(c->s[64 + i] << (i % 8));
}

static void begin_bits(bit_cipher *c, const uint8_t *key, size_t key_len,
                       const uint8_t *nonce)
{
    for (int j = 0; j < 128; j++)
        c->s[j] = 0;
    c->key = key;
    c->key_bits = 8 * key_len;
    long_run(c);
    for (int word = 0; word < 3; word++) {
        frame(c, 1);
        short_run(c);
        put_bits(c, nonce + 4 * word, 4);
    }
}

static void data_bits(bit_cipher *c, const uint8_t *ad, size_t ad_len)
{
    size_t full = ad_len / 4, left = ad_len % 4;
    for (size_t block = 0; block < full; block++) {
        frame(c, 3);
        short_run(c);
        put_bits(c, ad + 4 * block, 4);
    }
    if (left > 0) {
        frame(c, 3);
        short_run(c);
        put_bits(c, ad + 4 * full, left);
        mark(c, left);
    }
}

static void text_block(bit_cipher *c, const uint8_t *text, size_t count,
                       uint8_t *sealed)
{
    frame(c, 5);
    long_run(c);
    put_bits(c, text, count);
    state_bytes(c, count, sealed);
    for (size_t i = 0; i < count; i++)
        sealed[i] ^= text[i];
}

static void text_bits(bit_cipher *c, const uint8_t *text, size_t text_len,
                      uint8_t *sealed)
{
    size_t full = text_len / 4, left = text_len % 4;
    for (size_t block = 0; block < full; block++)
        text_block(c, text + 4 * block, 4, sealed + 4 * block);
    if (left > 0) {
        text_block(c, text + 4 * full, left, sealed + 4 * full);
        mark(c, left);
    }
}

static void tag_bits(bit_cipher *c, uint8_t *tag)
{
    frame(c, 7);
    long_run(c);
    state_bytes(c, 4, tag);
    frame(c, 7);
    short_run(c);
    state_bytes(c, 4, tag + 4);
}

void bitwise_seal(const uint8_t *key, size_t key_len, const uint8_t *nonce,
                  const uint8_t *ad, size_t ad_len,
                  const uint8_t *text, size_t text_len, uint8_t *sealed)
{
    bit_cipher c;
    begin_bits(&c, key, key_len, nonce);
    data_bits(&c, ad, ad_len);
    text_bits(&c, text, text_len, sealed);
    tag_bits(&c, sealed + text_len);
}
