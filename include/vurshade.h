/* Vurshade: sealing and opening whole messages from C.
 *
 * A message is sealed under a key of 16, 24 or 32 bytes and a nonce of 12
 * bytes. Associated data is not part of the sealed bytes, but an opening must
 * be given the same data. The sealed bytes are the sealed text, as long as the
 * text, followed by a tag of 8 bytes.
 *
 * For every buffer of both calls the caller answers that
 * - its pointer is not null, not even where the length is 0;
 * - its length is true: that many bytes may be read, or for `out` written;
 * - it overlaps none of the others, and nothing else changes it during the
 *   call.
 *
 * The caller also answers for never sealing twice with the same nonce under
 * the same key. The library cannot notice it, and two such messages give away
 * text and make forgery easier.
 *
 * Each call answers a length, or a refusal, which is any number below 0. The
 * checks run in the order in which the refusals are listed; the first that
 * applies is the answer. No call changes the bytes it reads.
 *
 * The calls keep nothing from one to the next, so they may run at the same time
 * on buffers of their own. While an opening runs, `out` may hold text that is
 * not authenticated yet: nothing may read it before the call has answered.
 *
 * The library is built for 64-bit Linux on x86-64. */
#ifndef VURSHADE_H
#define VURSHADE_H

#include <stddef.h>
#include <stdint.h>

#ifdef __cplusplus
extern "C" {
#endif

/* Bytes in a nonce. */
#define VURSHADE_NONCE_LENGTH 12

/* Bytes by which the sealed bytes are longer than the text. */
#define VURSHADE_TAG_LENGTH 8

/* The most bytes of associated data, and the most bytes of text. */
#define VURSHADE_MAX_LENGTH 65536

/* The refusals. */
enum {
    /* The key is not 16, 24 or 32 bytes. */
    VURSHADE_REFUSED_KEY_LENGTH = -1,
    /* The nonce is not 12 bytes. */
    VURSHADE_REFUSED_NONCE_LENGTH = -2,
    /* The associated data is longer than 65,536 bytes. */
    VURSHADE_REFUSED_DATA_TOO_LONG = -3,
    /* The text is longer than 65,536 bytes. At an opening, the text is the
     * sealed bytes less 8. */
    VURSHADE_REFUSED_TEXT_TOO_LONG = -4,
    /* An opening was given fewer than 8 sealed bytes. */
    VURSHADE_REFUSED_SEALED_TOO_SHORT = -5,
    /* `out` is shorter than the result. */
    VURSHADE_REFUSED_OUT_TOO_SHORT = -12,
    /* No text seals to the sealed bytes under this key, nonce and data. */
    VURSHADE_REFUSED_BROKEN = -13
};

/* Seals `text` with the associated data `ad`.
 *
 * Answers text_len + 8 and writes that many sealed bytes at the start of `out`;
 * the rest of `out` stays as it was.
 *
 * Refuses, in this order, with
 *   VURSHADE_REFUSED_KEY_LENGTH     key_len is not 16, 24 or 32
 *   VURSHADE_REFUSED_NONCE_LENGTH   nonce_len is not 12
 *   VURSHADE_REFUSED_DATA_TOO_LONG  ad_len is above 65,536
 *   VURSHADE_REFUSED_TEXT_TOO_LONG  text_len is above 65,536
 *   VURSHADE_REFUSED_OUT_TOO_SHORT  out_len is below text_len + 8
 * A refusal leaves all of `out` as it was. */
int64_t vurshade_seal(const uint8_t *key, size_t key_len,
                      const uint8_t *nonce, size_t nonce_len,
                      const uint8_t *ad, size_t ad_len,
                      const uint8_t *text, size_t text_len,
                      uint8_t *out, size_t out_len);

/* Opens `sealed`, which was sealed with the associated data `ad`.
 *
 * Answers sealed_len - 8 and writes the text, of that many bytes, at the start
 * of `out`; the rest of `out` stays as it was.
 *
 * Refuses, in this order, with
 *   VURSHADE_REFUSED_KEY_LENGTH        key_len is not 16, 24 or 32
 *   VURSHADE_REFUSED_NONCE_LENGTH      nonce_len is not 12
 *   VURSHADE_REFUSED_DATA_TOO_LONG     ad_len is above 65,536
 *   VURSHADE_REFUSED_TEXT_TOO_LONG     sealed_len is above 65,544
 *   VURSHADE_REFUSED_SEALED_TOO_SHORT  sealed_len is below 8
 *   VURSHADE_REFUSED_OUT_TOO_SHORT     out_len is below sealed_len - 8
 *   VURSHADE_REFUSED_BROKEN            no text seals to `sealed` under this
 *                                      key, nonce and data
 * A refusal fills all out_len bytes of `out` with zeros. */
int64_t vurshade_open(const uint8_t *key, size_t key_len,
                      const uint8_t *nonce, size_t nonce_len,
                      const uint8_t *ad, size_t ad_len,
                      const uint8_t *sealed, size_t sealed_len,
                      uint8_t *out, size_t out_len);

#ifdef __cplusplus
}
#endif

#endif
