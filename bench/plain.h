/* Sealing in plain C, as fast as plain C is here: what the library is measured against. */
#ifndef PLAIN_H
#define PLAIN_H

#include <stddef.h>
#include <stdint.h>

/* Writes the sealed form of `text`, text_len + 8 bytes, to `out`. The key has 16, 24 or 32 bytes, the nonce 12. */
void plain_seal(const uint8_t *key, size_t key_len, const uint8_t *nonce, const uint8_t *ad, size_t ad_len,
                const uint8_t *text, size_t text_len, uint8_t *out);

#endif
