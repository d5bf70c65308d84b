/* The reference implementation's permutation P of 0..d-1. See parts.h. */
#include "parts.h"

#include <openssl/evp.h>

enum { ROUNDS = 8 };

static EVP_CIPHER_CTX *permuting;

void permutation_start(void)
{
    permuting = EVP_CIPHER_CTX_new();
    must(permuting && EVP_EncryptInit_ex(permuting, EVP_chacha20(), NULL, NULL, NULL));
}

void permutation_end(void)
{
    EVP_CIPHER_CTX_free(permuting);
}

unsigned reference_half_width(uint64_t d)
{
    unsigned b = 0;
    while ((d - 1) >> b)
        b++;
    return b <= 2 ? 1 : (b + 1) / 2;
}

/* "F is the low h bits of the first four bytes, little-endian, of the ChaCha20 block with that key,
 * block counter R, nonce eleven zero bytes and then q" */
static uint64_t round_word(uint64_t R, uint8_t q, unsigned h)
{
    uint8_t counter_and_nonce[4 + NONCE_BYTES] = {(uint8_t)R, (uint8_t)(R >> 8), (uint8_t)(R >> 16),
                                                  (uint8_t)(R >> 24)};
    uint8_t zeros[4] = {0}, first[4];
    int length;
    counter_and_nonce[sizeof counter_and_nonce - 1] = q;
    must(EVP_EncryptInit_ex(permuting, NULL, NULL, NULL, counter_and_nonce));
    must(EVP_EncryptUpdate(permuting, first, &length, zeros, sizeof zeros));
    uint64_t word =
        first[0] | (uint64_t)first[1] << 8 | (uint64_t)first[2] << 16 | (uint64_t)first[3] << 24;
    return word & ((UINT64_C(1) << h) - 1);
}

/* "Rounds q = 0..7 each turn (L, R) into (R, L xor F)" */
static uint64_t eight_rounds(uint64_t x, unsigned h)
{
    uint64_t L = x >> h, R = x & ((UINT64_C(1) << h) - 1);
    for (int q = 0; q < ROUNDS; q++) {
        uint64_t mixed = L ^ round_word(R, (uint8_t)q, h);
        L = R;
        R = mixed;
    }
    return L << h | R;
}

static uint64_t eight_rounds_back(uint64_t x, unsigned h)
{
    uint64_t L = x >> h, R = x & ((UINT64_C(1) << h) - 1);
    for (int q = ROUNDS - 1; q >= 0; q--) {
        uint64_t unmixed = R ^ round_word(L, (uint8_t)q, h);
        R = L;
        L = unmixed;
    }
    return L << h | R;
}

void use_draw_key(const uint8_t *key)
{
    must(EVP_EncryptInit_ex(permuting, NULL, NULL, key, NULL));
}

/* "Apply all eight rounds again until the number is below d"; "how many times the eight rounds were
 * applied, both ways" */
struct walk permuted(uint64_t d, uint64_t x)
{
    unsigned h = reference_half_width(d);
    struct walk walk = {x, 0};
    do {
        walk.end = eight_rounds(walk.end, h);
        walk.turns++;
    } while (walk.end >= d);
    return walk;
}

struct walk permuted_back(uint64_t d, uint64_t x)
{
    unsigned h = reference_half_width(d);
    struct walk walk = {x, 0};
    do {
        walk.end = eight_rounds_back(walk.end, h);
        walk.turns++;
    } while (walk.end >= d);
    return walk;
}

struct walk reference_permuted(const uint8_t *key, uint64_t d, uint64_t x)
{
    use_draw_key(key);
    return permuted(d, x);
}

struct walk reference_permuted_back(const uint8_t *key, uint64_t d, uint64_t x)
{
    use_draw_key(key);
    return permuted_back(d, x);
}
