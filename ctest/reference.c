/* The cipher, 32 rounds at a time on words. */
#include "reference.h"

#include <string.h>

enum { FRAME_NONCE = 1, FRAME_DATA = 3, FRAME_TEXT = 5, FRAME_TAG = 7 };
enum { SHORT_RUN = 640 };

typedef struct {
    uint32_t state[4];
    uint32_t key[8];
    size_t key_words;
    unsigned long_run;
} cipher;

/* Up to four bytes as a word, first byte least significant. */
static uint32_t load(const uint8_t *bytes, size_t len)
{
    uint32_t word = 0;
    for (size_t i = 0; i < len; i++)
        word |= (uint32_t)bytes[i] << (8 * i);
    return word;
}

static void store(uint8_t *bytes, size_t len, uint32_t word)
{
    for (size_t i = 0; i < len; i++)
        bytes[i] = (uint8_t)(word >> (8 * i));
}

/* The 32 state bits from bit j upward. */
static uint32_t bits_from(const uint32_t *state, unsigned j)
{
    uint64_t pair = (uint64_t)state[j / 32 + 1] << 32 | state[j / 32];
    return (uint32_t)(pair >> (j % 32));
}

static void run(cipher *c, unsigned rounds)
{
    uint32_t *s = c->state;
    for (unsigned i = 0; i < rounds / 32; i++) {
        uint32_t f = s[0] ^ bits_from(s, 47)
                     ^ ~(bits_from(s, 70) & bits_from(s, 85))
                     ^ bits_from(s, 91) ^ c->key[i % c->key_words];
        s[0] = s[1];
        s[1] = s[2];
        s[2] = s[3];
        s[3] = f;
    }
}

/* Lays the frame into s36 to s38, then runs. */
static void framed_run(cipher *c, uint32_t frame, unsigned rounds)
{
    c->state[1] ^= frame << 4;
    run(c, rounds);
}

/* Puts 1 to 4 bytes in at s96 and marks the number of a leftover at s32. */
static void put(cipher *c, const uint8_t *bytes, size_t len)
{
    c->state[3] ^= load(bytes, len);
    if (len < 4)
        c->state[1] ^= (uint32_t)len;
}

static size_t block_length(size_t left)
{
    return left < 4 ? left : 4;
}

static void begin(cipher *c, const uint8_t *key, size_t key_len,
                  const uint8_t *nonce)
{
    memset(c, 0, sizeof *c);
    c->key_words = key_len / 4;
    for (size_t i = 0; i < c->key_words; i++)
        c->key[i] = load(key + 4 * i, 4);
    c->long_run = key_len == 16 ? 1024 : key_len == 24 ? 1152 : 1280;
    run(c, c->long_run);
    for (size_t i = 0; i < 12; i += 4) {
        framed_run(c, FRAME_NONCE, SHORT_RUN);
        put(c, nonce + i, 4);
    }
}

static void take_data(cipher *c, const uint8_t *ad, size_t ad_len)
{
    for (size_t i = 0; i < ad_len; i += 4) {
        framed_run(c, FRAME_DATA, SHORT_RUN);
        put(c, ad + i, block_length(ad_len - i));
    }
}

static void take_tag(cipher *c, uint8_t *tag)
{
    framed_run(c, FRAME_TAG, c->long_run);
    store(tag, 4, c->state[2]);
    framed_run(c, FRAME_TAG, SHORT_RUN);
    store(tag + 4, 4, c->state[2]);
}

void reference_seal(const uint8_t *key, size_t key_len, const uint8_t *nonce,
                    const uint8_t *ad, size_t ad_len,
                    const uint8_t *text, size_t text_len, uint8_t *sealed)
{
    cipher c;
    begin(&c, key, key_len, nonce);
    take_data(&c, ad, ad_len);
    for (size_t i = 0; i < text_len; i += 4) {
        size_t len = block_length(text_len - i);
        framed_run(&c, FRAME_TEXT, c.long_run);
        store(sealed + i, len, load(text + i, len) ^ c.state[2]);
        put(&c, text + i, len);
    }
    take_tag(&c, sealed + text_len);
}

int reference_open(const uint8_t *key, size_t key_len, const uint8_t *nonce,
                   const uint8_t *ad, size_t ad_len,
                   const uint8_t *sealed, size_t sealed_len, uint8_t *text)
{
    size_t text_len = sealed_len - 8;
    uint8_t tag[8];
    cipher c;
    begin(&c, key, key_len, nonce);
    take_data(&c, ad, ad_len);
    for (size_t i = 0; i < text_len; i += 4) {
        size_t len = block_length(text_len - i);
        framed_run(&c, FRAME_TEXT, c.long_run);
        store(text + i, len, load(sealed + i, len) ^ c.state[2]);
        put(&c, text + i, len);
    }
    take_tag(&c, tag);
    return memcmp(tag, sealed + text_len, 8) == 0;
}
