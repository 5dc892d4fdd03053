/* The cipher one bit at a time: slow, but as close to its description as can
 * be. The reference is checked against it. */
#ifndef BITWISE_H
#define BITWISE_H

#include <stddef.h>
#include <stdint.h>

/* Writes text_len + 8 bytes to sealed. The key is 16, 24 or 32 bytes long, the
 * nonce 12. */
void bitwise_seal(const uint8_t *key, size_t key_len, const uint8_t *nonce,
                  const uint8_t *ad, size_t ad_len,
                  const uint8_t *text, size_t text_len, uint8_t *sealed);

#endif
