/* Compares the calls of the static library with the model. */
#include "random.h"
#include "reference_test.h"
#include "trial.h"
#include "vurshade.h"

#include <stdio.h>

static const uint64_t seed = 0x5655525348414445u;

enum { SHORT_CASES = 16000, LONG_CASES = 400 };

/* Chosen and random cases together: a test that tries fewer has lost some. */
enum { EXPECTED_CASES = 29755 };
enum { FEW = 20, SHORT = 200, LIMIT = VURSHADE_MAX_LENGTH };

#define COUNT(list) (sizeof(list) / sizeof *(list))

static const size_t key_lengths[] = {16, 24, 32};
static const size_t wrong_keys[] = {0,  1,  8,  12, 15, 17,  20,
                                    23, 25, 31, 33, 64, 272, 65552};
static const size_t wrong_nonces[] = {0,  1,  8,  11, 13,
                                      16, 24, 32, 96, 268, 65548};
static const size_t long_lengths[] = {65532, 65533, 65534, 65535, 65536,
                                      65537, 65538, 65539, 65540, 65544,
                                      65545, 131072};

_Static_assert(VURSHADE_REFUSED_KEY_LENGTH == -1, "refusal 1");
_Static_assert(VURSHADE_REFUSED_NONCE_LENGTH == -2, "refusal 2");
_Static_assert(VURSHADE_REFUSED_DATA_TOO_LONG == -3, "refusal 3");
_Static_assert(VURSHADE_REFUSED_TEXT_TOO_LONG == -4, "refusal 4");
_Static_assert(VURSHADE_REFUSED_SEALED_TOO_SHORT == -5, "refusal 5");
_Static_assert(VURSHADE_REFUSED_OUT_TOO_SHORT == -12, "refusal 12");
_Static_assert(VURSHADE_REFUSED_BROKEN == -13, "refusal 13");
_Static_assert(VURSHADE_NONCE_LENGTH == 12 && VURSHADE_TAG_LENGTH == 8
                   && VURSHADE_MAX_LENGTH == 65536, "lengths");

static size_t pick(const size_t *list, size_t count)
{
    return list[random_below(count)];
}

static size_t any_key_length(void)
{
    return pick(key_lengths, COUNT(key_lengths));
}

/* All short lengths of data and text, with out exact and longer. */
static void short_lengths(size_t key_len, int opening)
{
    for (size_t ad_len = 0; ad_len <= FEW; ad_len++)
        for (size_t text_len = 0; text_len <= FEW; text_len++) {
            trial t = trial_new("short lengths", opening, key_len, 12, ad_len,
                                text_len);
            int64_t result = (int64_t)t.out_len;
            trial_expect(&t, result);
            t.out_len += 1 + random_below(40);
            trial_expect(&t, result);
            trial_free(&t);
        }
}

/* Data and text around their limits. */
static void limits(size_t key_len, int opening)
{
    static const size_t lengths[] = {5, LIMIT - 3, LIMIT - 2, LIMIT - 1, LIMIT,
                                     LIMIT + 1, LIMIT + 2, 2 * LIMIT};
    for (size_t i = 0; i < COUNT(lengths); i++)
        for (size_t j = 0; j < COUNT(lengths); j++) {
            trial t = trial_new("limits", opening, key_len, 12, lengths[i],
                                lengths[j]);
            int64_t result = (int64_t)t.out_len;
            t.out_len += random_below(2) * 9;
            trial_expect(&t, lengths[i] > LIMIT   ? -3
                             : lengths[j] > LIMIT ? -4
                                                  : result);
            trial_free(&t);
        }
}

/* Every length of out from 0 to beyond the result. */
static void out_lengths(size_t key_len, int opening)
{
    for (size_t text_len = 0; text_len <= FEW; text_len++) {
        trial t = trial_new("out lengths", opening, key_len, 12,
                            random_below(FEW), text_len);
        size_t result = t.out_len;
        for (t.out_len = 0; t.out_len < result + 9; t.out_len++)
            trial_expect(&t, t.out_len < result ? -12 : (int64_t)result);
        trial_free(&t);
    }
}

/* Keys and nonces of wrong lengths. */
static void wrong_lengths(int opening)
{
    for (size_t i = 0; i < COUNT(wrong_keys); i++) {
        trial t = trial_new("key length", opening, wrong_keys[i], 12, 5, 9);
        trial_expect(&t, -1);
        trial_free(&t);
    }
    for (size_t i = 0; i < COUNT(wrong_nonces); i++) {
        trial t = trial_new("nonce length", opening, any_key_length(),
                            wrong_nonces[i], 5, 9);
        trial_expect(&t, -2);
        trial_free(&t);
    }
}

/* Openings of 0 to 7 sealed bytes. */
static void short_sealed(size_t key_len)
{
    for (size_t sealed_len = 0; sealed_len < 8; sealed_len++) {
        trial t = trial_new("short sealed", 1, key_len, 12,
                            random_below(FEW), 0);
        trial_resize(&t, BODY, sealed_len);
        for (t.out_len = 0; t.out_len <= FEW; t.out_len++)
            trial_expect(&t, -5);
        trial_free(&t);
    }
}

/* Each bit of each input of an opening, flipped alone. */
static void flipped_bits(size_t key_len, size_t ad_len, size_t text_len)
{
    trial t = trial_new("flipped bit", 1, key_len, 12, ad_len, text_len);
    t.out_len += 3;
    for (int input = 0; input < INPUTS; input++)
        for (size_t bit = 0; bit < 8 * t.in[input].len; bit++) {
            trial_flip(&t, input, bit);
            trial_expect(&t, -13);
            trial_flip(&t, input, bit);
        }
    trial_expect(&t, (int64_t)text_len);
    trial_free(&t);
}

/* The faults of a call as a set: bit n stands for refusal n. */
static int has(unsigned faults, int refusal)
{
    return faults >> refusal & 1u;
}

static trial faulty_trial(int opening, size_t key_len, unsigned faults)
{
    trial t = trial_new(
        "several faults", opening,
        has(faults, 1) ? pick(wrong_keys, COUNT(wrong_keys)) : key_len,
        has(faults, 2) ? pick(wrong_nonces, COUNT(wrong_nonces)) : 12,
        has(faults, 3) ? LIMIT + 1 : random_below(FEW),
        has(faults, 4) ? LIMIT + 1 : 1 + random_below(FEW));
    if (has(faults, 13))
        trial_flip(&t, BODY, random_below(8 * t.in[BODY].len));
    if (has(faults, 5))
        trial_resize(&t, BODY, random_below(8));
    t.out_len = trial_result(&t) + random_below(9);
    if (has(faults, 12))
        t.out_len = has(faults, 5) ? 0 : trial_result(&t) - 1;
    return t;
}

/* Every set of faults that can come together: the first is the answer. */
static void several_faults(int opening, size_t key_len)
{
    static const int refusals[] = {1, 2, 3, 4, 12, 5, 13};
    unsigned kinds = opening ? 7 : 5;
    for (unsigned set = 1; set < 1u << kinds; set++) {
        unsigned faults = 0;
        int first = 0;
        for (unsigned i = 0; i < kinds; i++)
            faults |= (set >> i & 1u) << refusals[i];
        if (has(faults, 4) && has(faults, 5))
            continue;
        while (!has(faults, first))
            first++;
        trial t = faulty_trial(opening, key_len, faults);
        trial_expect(&t, -first);
        trial_free(&t);
    }
}

static size_t random_length(int is_long)
{
    if (random_below(4) == 0)
        return random_below(FEW + 1);
    if (!is_long)
        return random_below(SHORT + 1);
    if (random_below(2) == 0)
        return pick(long_lengths, COUNT(long_lengths));
    return random_below(LIMIT + 1);
}

static size_t random_out_length(size_t result)
{
    switch (random_below(10)) {
    case 0:
        return 0;
    case 1:
        return result > 0 ? result - 1 : 0;
    case 2:
        return random_below(result + 1);
    case 3:
        return result + 1;
    case 4:
    case 5:
        return result + random_below(64);
    default:
        return result;
    }
}

static void flip_some(trial *t, int input)
{
    if (t->in[input].len > 0)
        trial_flip(t, input, random_below(8 * t->in[input].len));
}

static void alter(trial *t)
{
    size_t ad_len = t->in[AD].len, sealed_len = t->in[BODY].len;
    switch (random_below(18)) {
    case 0:
        flip_some(t, KEY);
        break;
    case 1:
        flip_some(t, NONCE);
        break;
    case 2:
        flip_some(t, AD);
        break;
    case 3:
        flip_some(t, BODY);
        break;
    case 4: /* the tag */
        trial_flip(t, BODY, 8 * (sealed_len - 8) + random_below(64));
        break;
    case 5:
        trial_resize(t, BODY, random_below(sealed_len));
        break;
    case 6:
        trial_resize(t, BODY, sealed_len + 1 + random_below(8));
        break;
    case 7:
        trial_resize(t, AD, ad_len > 0 ? ad_len - 1 : 1);
        break;
    case 8:
        trial_resize(t, AD, ad_len + 1);
        break;
    default: /* nothing */
        break;
    }
}

static void random_case(int is_long)
{
    int opening = (int)random_below(2);
    size_t key_len = random_below(25) > 0
                         ? any_key_length()
                         : pick(wrong_keys, COUNT(wrong_keys));
    size_t nonce_len = random_below(25) > 0
                           ? 12
                           : pick(wrong_nonces, COUNT(wrong_nonces));
    trial t = trial_new(is_long ? "random, long" : "random, short", opening,
                        key_len, nonce_len, random_length(is_long),
                        random_length(is_long));
    if (opening)
        alter(&t);
    t.out_len = random_out_length(trial_result(&t));
    trial_run(&t);
    trial_free(&t);
}

static void chosen_cases(void)
{
    for (int opening = 0; opening < 2; opening++) {
        wrong_lengths(opening);
        for (size_t i = 0; i < COUNT(key_lengths); i++) {
            short_lengths(key_lengths[i], opening);
            out_lengths(key_lengths[i], opening);
            several_faults(opening, key_lengths[i]);
            limits(key_lengths[i], opening);
        }
    }
    for (size_t i = 0; i < COUNT(key_lengths); i++) {
        short_sealed(key_lengths[i]);
        flipped_bits(key_lengths[i], 0, 0);
        flipped_bits(key_lengths[i], 5, 8);
        flipped_bits(key_lengths[i], 4, 11);
    }
}

int main(void)
{
    setvbuf(stdout, NULL, _IOLBF, BUFSIZ);
    printf("host_test: seed %#llx\n", (unsigned long long)seed);
    random_start(seed);
    trial_begin();
    if (!reference_agrees())
        return 1;
    chosen_cases();
    for (int i = 0; i < SHORT_CASES; i++)
        random_case(0);
    for (int i = 0; i < LONG_CASES; i++)
        random_case(1);
    if (trial_count() != EXPECTED_CASES) {
        printf("host_test: %lu cases were tried, not %d\n", trial_count(), EXPECTED_CASES);
        return 1;
    }
    printf("host_test: %d cases agree\n", EXPECTED_CASES);
    return 0;
}
