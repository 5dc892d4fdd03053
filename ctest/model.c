#include "model.h"

#include "reference.h"

#include <string.h>

enum { LIMIT = 65536 };

/* Refusals 1 to 4, or 0. */
static int64_t refused_lengths(size_t key_len, size_t nonce_len, size_t ad_len,
                               size_t text_len)
{
    if (key_len != 16 && key_len != 24 && key_len != 32)
        return -1;
    if (nonce_len != 12)
        return -2;
    if (ad_len > LIMIT)
        return -3;
    if (text_len > LIMIT)
        return -4;
    return 0;
}

int64_t model_seal(const uint8_t *key, size_t key_len,
                   const uint8_t *nonce, size_t nonce_len,
                   const uint8_t *ad, size_t ad_len,
                   const uint8_t *text, size_t text_len,
                   uint8_t *out, size_t out_len)
{
    int64_t refused = refused_lengths(key_len, nonce_len, ad_len, text_len);
    if (refused != 0)
        return refused;
    if (out_len < text_len + 8)
        return -12;
    reference_seal(key, key_len, nonce, ad, ad_len, text, text_len, out);
    return (int64_t)text_len + 8;
}

/* Refusals 1 to 12 of an opening, or 0. */
static int64_t refused_opening(size_t key_len, size_t nonce_len, size_t ad_len,
                               size_t sealed_len, size_t out_len)
{
    size_t text_len = sealed_len < 8 ? 0 : sealed_len - 8;
    int64_t refused = refused_lengths(key_len, nonce_len, ad_len, text_len);
    if (refused != 0)
        return refused;
    if (sealed_len < 8)
        return -5;
    if (out_len < text_len)
        return -12;
    return 0;
}

int64_t model_open(const uint8_t *key, size_t key_len,
                   const uint8_t *nonce, size_t nonce_len,
                   const uint8_t *ad, size_t ad_len,
                   const uint8_t *sealed, size_t sealed_len,
                   uint8_t *out, size_t out_len)
{
    int64_t refused = refused_opening(key_len, nonce_len, ad_len, sealed_len,
                                      out_len);
    if (refused == 0 && !reference_open(key, key_len, nonce, ad, ad_len,
                                        sealed, sealed_len, out))
        refused = -13;
    if (refused == 0)
        return (int64_t)sealed_len - 8;
    memset(out, 0, out_len);
    return refused;
}
