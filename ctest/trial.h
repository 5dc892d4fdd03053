/* One call of the library, compared with the model in its answer, in every
 * byte of out and around it, and in the bytes it reads. */
#ifndef TRIAL_H
#define TRIAL_H

#include <stddef.h>
#include <stdint.h>

/* Bytes at a random alignment in memory of their own that ends with them. */
typedef struct {
    uint8_t *memory;
    uint8_t *at;
    size_t len;
} buffer;

enum { KEY, NONCE, AD, BODY, INPUTS };

/* The body is the text of a sealing, the sealed bytes of an opening. */
typedef struct {
    const char *what;
    int opening;
    buffer in[INPUTS];
    size_t out_len;
} trial;

/* Has a crash in the library reported like a difference. */
void trial_begin(void);

/* A trial on random bytes. The body of an opening is a true sealing of text_len
 * bytes if the lengths of key and nonce allow one, otherwise it is random.
 * out_len is that of the result. */
trial trial_new(const char *what, int opening, size_t key_len, size_t nonce_len,
                size_t ad_len, size_t text_len);

/* Cuts an input, or lengthens it with zeros. */
void trial_resize(trial *t, int input, size_t len);

/* Flips one bit of an input. */
void trial_flip(trial *t, int input, size_t bit);

/* The length of the result; 0 for an opening of fewer than 8 bytes. */
size_t trial_result(const trial *t);

/* Calls the library. If anything differs from the model, prints it and ends
 * the program. Answers what the library answered. */
int64_t trial_run(const trial *t);

/* As trial_run, and the answer has to be this one. */
void trial_expect(const trial *t, int64_t answer);

void trial_free(trial *t);

/* The number of calls so far. */
unsigned long trial_count(void);

#endif
