/* The cipher in plain C, to compare the library with. See docs/CIPHER.md.
 *
 * Key lengths must be 16, 24 or 32 bytes, nonces 12 bytes. */
#ifndef REFERENCE_H
#define REFERENCE_H

#include <stddef.h>
#include <stdint.h>

/* Writes text_len + 8 bytes to sealed. */
void reference_seal(const uint8_t *key, size_t key_len, const uint8_t *nonce,
                    const uint8_t *ad, size_t ad_len,
                    const uint8_t *text, size_t text_len, uint8_t *sealed);

/* Writes the sealed_len - 8 recovered bytes to text, whether or not the tag is
 * right, and answers 1 if it is, otherwise 0. sealed_len is at least 8. */
int reference_open(const uint8_t *key, size_t key_len, const uint8_t *nonce,
                   const uint8_t *ad, size_t ad_len,
                   const uint8_t *sealed, size_t sealed_len, uint8_t *text);

#endif
