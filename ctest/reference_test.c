#include "reference_test.h"

#include "bitwise.h"
#include "random.h"
#include "reference.h"

#include <stdio.h>
#include <string.h>

enum { MOST = 48 };

/* Key, nonce, data and text of a test value are the bytes 00, 01, 02 and on. */
typedef struct {
    size_t key_len, ad_len, text_len;
    const char *sealed;
} test_value;

static const test_value test_values[] = {
    {16, 0, 0, "ED7B37CC6E9BDC7B"},
    {16, 2, 9, "62776DC14D970940D9A1E01FC441E30E35"},
    {16, 32, 32,
     "BB28A2FF7EAE50BB6388C5F5A82276E093BCCD71ADD0F302B5597B9CEF223D06"
     "B8498BA24F4F03CB"},
    {24, 1, 0, "5EDC4F614E4A624E"},
    {24, 7, 4, "8C89F1108747C584812926BA"},
    {24, 32, 32,
     "77DF5E5F1CF99AA118CAFB80CE6537E678D68B38125704EC56212AD679E801C0"
     "69C6E1154A690E53"},
    {32, 0, 3, "22C8D63A6193CAA61BB747"},
    {32, 2, 9, "E1F11696ADBE942AEE443593CD689E0C40"},
    {32, 17, 17, "E67700277F86297C72703F5313FD1AB08D6DE4255B18C8F7DC"},
};

static void to_hex(const uint8_t *bytes, size_t len, char *hex)
{
    for (size_t i = 0; i < len; i++)
        sprintf(hex + 2 * i, "%02X", bytes[i]);
}

static int value_agrees(const test_value *v)
{
    uint8_t count[MOST], sealed[MOST + 8];
    char hex[2 * (MOST + 8) + 1] = "";
    for (size_t i = 0; i < MOST; i++)
        count[i] = (uint8_t)i;
    reference_seal(count, v->key_len, count, count, v->ad_len,
                   count, v->text_len, sealed);
    to_hex(sealed, v->text_len + 8, hex);
    if (strcmp(hex, v->sealed) == 0)
        return 1;
    printf("reference: key %zu, data %zu, text %zu bytes: sealed %s, not %s\n",
           v->key_len, v->ad_len, v->text_len, hex, v->sealed);
    return 0;
}

/* One random message: the two ciphers seal alike, the reference opens what it
 * sealed, and opens it no more once a bit is altered. */
static int message_agrees(size_t key_len)
{
    uint8_t key[32], nonce[12], ad[MOST], text[MOST];
    uint8_t sealed[MOST + 8], bitwise[MOST + 8], opened[MOST];
    size_t ad_len = random_below(MOST + 1), text_len = random_below(MOST + 1);
    size_t bit = random_below(8 * (text_len + 8));
    random_fill(key, sizeof key);
    random_fill(nonce, sizeof nonce);
    random_fill(ad, sizeof ad);
    random_fill(text, sizeof text);
    reference_seal(key, key_len, nonce, ad, ad_len, text, text_len, sealed);
    bitwise_seal(key, key_len, nonce, ad, ad_len, text, text_len, bitwise);
    int right = memcmp(sealed, bitwise, text_len + 8) == 0
                && reference_open(key, key_len, nonce, ad, ad_len, sealed,
                                  text_len + 8, opened)
                && memcmp(opened, text, text_len) == 0;
    sealed[bit / 8] ^= (uint8_t)(1u << bit % 8);
    right = right && !reference_open(key, key_len, nonce, ad, ad_len, sealed,
                                     text_len + 8, opened);
    if (!right)
        printf("reference: key %zu, data %zu, text %zu bytes: differs\n",
               key_len, ad_len, text_len);
    return right;
}

int reference_agrees(void)
{
    for (size_t i = 0; i < sizeof test_values / sizeof *test_values; i++)
        if (!value_agrees(&test_values[i]))
            return 0;
    for (int i = 0; i < 300; i++)
        for (size_t key_len = 16; key_len <= 32; key_len += 8)
            if (!message_agrees(key_len))
                return 0;
    return 1;
}
