#include "trial.h"

#include "model.h"
#include "random.h"
#include "reference.h"
#include "vurshade.h"

#include <signal.h>
#include <stdio.h>
#include <stdlib.h>
#include <string.h>

enum { GUARD = 64 };

static unsigned long count;
static const trial *current;

unsigned long trial_count(void)
{
    return count;
}

static uint8_t *allocate(size_t len)
{
    uint8_t *memory = malloc(len > 0 ? len : 1);
    if (memory == NULL) {
        printf("host_test: out of memory\n");
        exit(1);
    }
    return memory;
}

static buffer buffer_new(size_t len)
{
    size_t shift = random_below(8);
    buffer b = {allocate(shift + len), NULL, len};
    b.at = b.memory + shift;
    return b;
}

static buffer buffer_random(size_t len)
{
    buffer b = buffer_new(len);
    random_fill(b.at, len);
    return b;
}

static int can_seal(const trial *t)
{
    size_t key_len = t->in[KEY].len;
    return (key_len == 16 || key_len == 24 || key_len == 32)
           && t->in[NONCE].len == 12;
}

/* Puts a true sealing in the place of the text. */
static void seal_body(trial *t)
{
    buffer text = t->in[BODY], sealed = buffer_random(text.len + 8);
    if (can_seal(t))
        reference_seal(t->in[KEY].at, t->in[KEY].len, t->in[NONCE].at,
                       t->in[AD].at, t->in[AD].len, text.at, text.len,
                       sealed.at);
    t->in[BODY] = sealed;
    free(text.memory);
}

trial trial_new(const char *what, int opening, size_t key_len, size_t nonce_len,
                size_t ad_len, size_t text_len)
{
    trial t = {.what = what, .opening = opening};
    t.in[KEY] = buffer_random(key_len);
    t.in[NONCE] = buffer_random(nonce_len);
    t.in[AD] = buffer_random(ad_len);
    t.in[BODY] = buffer_random(text_len);
    if (opening)
        seal_body(&t);
    t.out_len = trial_result(&t);
    return t;
}

void trial_free(trial *t)
{
    for (int i = 0; i < INPUTS; i++)
        free(t->in[i].memory);
}

void trial_resize(trial *t, int input, size_t len)
{
    buffer old = t->in[input], b = buffer_new(len);
    size_t kept = old.len < len ? old.len : len;
    memcpy(b.at, old.at, kept);
    memset(b.at + kept, 0, len - kept);
    t->in[input] = b;
    free(old.memory);
}

void trial_flip(trial *t, int input, size_t bit)
{
    t->in[input].at[bit / 8] ^= (uint8_t)(1u << bit % 8);
}

size_t trial_result(const trial *t)
{
    size_t len = t->in[BODY].len;
    if (!t->opening)
        return len + 8;
    return len < 8 ? 0 : len - 8;
}

static void fail(const trial *t)
{
    printf("  in case %lu, %s: %s with key %zu, nonce %zu, ad %zu, %s %zu, "
           "out %zu bytes\n",
           count, t->what, t->opening ? "vurshade_open" : "vurshade_seal",
           t->in[KEY].len, t->in[NONCE].len, t->in[AD].len,
           t->opening ? "sealed" : "text", t->in[BODY].len, t->out_len);
    _Exit(1);
}

static void crashed(int number)
{
    printf("host_test: the call ended with signal %d\n", number);
    fail(current);
}

void trial_begin(void)
{
    signal(SIGABRT, crashed);
    signal(SIGFPE, crashed);
    signal(SIGILL, crashed);
    signal(SIGSEGV, crashed);
}

static void same_answer(const trial *t, int64_t answer, int64_t expected)
{
    if (answer == expected)
        return;
    printf("host_test: answer %lld, expected %lld\n", (long long)answer,
           (long long)expected);
    fail(t);
}

/* `from` is the index to print for the first byte. */
static void same_bytes(const trial *t, const char *name, const uint8_t *bytes,
                       const uint8_t *expected, size_t len, long from)
{
    for (size_t i = 0; i < len; i++) {
        if (bytes[i] == expected[i])
            continue;
        printf("host_test: %s differs at byte %ld: %02X, expected %02X\n",
               name, from + (long)i, bytes[i], expected[i]);
        fail(t);
    }
}

typedef int64_t call(const uint8_t *, size_t, const uint8_t *, size_t,
                     const uint8_t *, size_t, const uint8_t *, size_t,
                     uint8_t *, size_t);

static int64_t apply(call *f, const buffer *in, uint8_t *out, size_t out_len)
{
    return f(in[KEY].at, in[KEY].len, in[NONCE].at, in[NONCE].len, in[AD].at,
             in[AD].len, in[BODY].at, in[BODY].len, out, out_len);
}

static buffer buffer_copy(const buffer *b)
{
    buffer copy = buffer_new(b->len);
    memcpy(copy.at, b->at, b->len);
    return copy;
}

/* Runs the library on copies of the inputs, which it must leave unchanged. */
static int64_t run_library(const trial *t, uint8_t *out)
{
    static const char *const names[INPUTS] = {"key", "nonce", "ad", "body"};
    buffer in[INPUTS];
    for (int i = 0; i < INPUTS; i++)
        in[i] = buffer_copy(&t->in[i]);
    int64_t answer = apply(t->opening ? vurshade_open : vurshade_seal, in, out,
                           t->out_len);
    for (int i = 0; i < INPUTS; i++) {
        same_bytes(t, names[i], in[i].at, t->in[i].at, in[i].len, 0);
        free(in[i].memory);
    }
    return answer;
}

int64_t trial_run(const trial *t)
{
    buffer out = buffer_random(GUARD + t->out_len + GUARD);
    buffer expected = buffer_copy(&out);
    count++;
    current = t;
    int64_t answer = run_library(t, out.at + GUARD);
    int64_t right = apply(t->opening ? model_open : model_seal, t->in,
                          expected.at + GUARD, t->out_len);
    same_answer(t, answer, right);
    same_bytes(t, "out", out.at, expected.at, out.len, -GUARD);
    free(out.memory);
    free(expected.memory);
    return answer;
}

void trial_expect(const trial *t, int64_t answer)
{
    same_answer(t, trial_run(t), answer);
}
