/* What the two calls of the library have to answer and to leave in out: the
 * refusals of docs/REFUSALS.md around the reference. */
#ifndef MODEL_H
#define MODEL_H

#include <stddef.h>
#include <stdint.h>

int64_t model_seal(const uint8_t *key, size_t key_len,
                   const uint8_t *nonce, size_t nonce_len,
                   const uint8_t *ad, size_t ad_len,
                   const uint8_t *text, size_t text_len,
                   uint8_t *out, size_t out_len);

int64_t model_open(const uint8_t *key, size_t key_len,
                   const uint8_t *nonce, size_t nonce_len,
                   const uint8_t *ad, size_t ad_len,
                   const uint8_t *sealed, size_t sealed_len,
                   uint8_t *out, size_t out_len);

#endif
