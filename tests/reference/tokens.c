/* The reference implementation's keys, tokens and token records. See parts.h. */
#define OPENSSL_SUPPRESS_DEPRECATED /* for SHA256_* and HMAC_* */
#include "parts.h"

#include <openssl/evp.h>
#include <openssl/hmac.h>
#include <openssl/sha.h>
#include <stdio.h>
#include <stdlib.h>
#include <string.h>

enum {
    HASH_BYTES = 32,
    TAG_BYTES = 16,
    CLEAR_BYTES = 15 /* of a token record: length, version, ctr, i */
};

/* What is kept between calls is libcrypto's room and the keys that a call puts there first. */
static EVP_CIPHER_CTX *sealing, *opening;
static HMAC_CTX *under_master, *under_w, *under_z;

void must(int done)
{
    if (!done) {
        fputs("second: libcrypto failed\n", stderr);
        exit(2);
    }
}

void reference_start(void)
{
    permutation_start();
    sealing = EVP_CIPHER_CTX_new();
    opening = EVP_CIPHER_CTX_new();
    under_master = HMAC_CTX_new();
    under_w = HMAC_CTX_new();
    under_z = HMAC_CTX_new();
    must(sealing && opening && under_master && under_w && under_z);
    must(EVP_EncryptInit_ex(sealing, EVP_chacha20_poly1305(), NULL, NULL, NULL));
    must(EVP_DecryptInit_ex(opening, EVP_chacha20_poly1305(), NULL, NULL, NULL));
}

void reference_end(void)
{
    permutation_end();
    EVP_CIPHER_CTX_free(sealing);
    EVP_CIPHER_CTX_free(opening);
    HMAC_CTX_free(under_master);
    HMAC_CTX_free(under_w);
    HMAC_CTX_free(under_z);
}

/* ---- Keys ---- */

/* HMAC of a text under the key that a context has. */
static void keyed_hash(HMAC_CTX *context, const uint8_t *text, size_t length, uint8_t *hash)
{
    must(HMAC_Init_ex(context, NULL, 0, NULL, NULL));
    must(HMAC_Update(context, text, length));
    must(HMAC_Final(context, hash, NULL));
}

/* "W, Z, K = HMAC(master, label then id), label one byte 1, 2, 3" */
static void labelled_key(uint8_t label, const uint8_t *id, uint8_t *key)
{
    uint8_t text[1 + LEGBARO_ID_BYTES];
    put_bytes(put(text, 1, label), id, LEGBARO_ID_BYTES);
    keyed_hash(under_master, text, sizeof text, key);
}

void use_keys(const uint8_t *master, const uint8_t *id)
{
    uint8_t w[KEY_BYTES], z[KEY_BYTES], k[KEY_BYTES];
    must(HMAC_Init_ex(under_master, master, LEGBARO_MASTER_BYTES, EVP_sha256(), NULL));
    labelled_key(1, id, w);
    labelled_key(2, id, z);
    labelled_key(3, id, k);
    must(HMAC_Init_ex(under_w, w, sizeof w, EVP_sha256(), NULL));
    must(HMAC_Init_ex(under_z, z, sizeof z, EVP_sha256(), NULL));
    must(EVP_EncryptInit_ex(sealing, NULL, NULL, k, NULL));
    must(EVP_DecryptInit_ex(opening, NULL, NULL, k, NULL));
}

/* "For token i (four bytes): k = HMAC(W, i), c = HMAC(Z, i)": one of them, under W or Z. */
static void token_key(HMAC_CTX *context, uint64_t i, uint8_t *key)
{
    uint8_t text[4];
    put(text, sizeof text, i);
    keyed_hash(context, text, sizeof text, key);
}

void draw_key_of(uint64_t i, uint8_t *k)
{
    token_key(under_w, i, k);
}

void hash_key_of(uint64_t i, uint8_t *c)
{
    token_key(under_z, i, c);
}

/* ---- Tokens ---- */

void mix_block(uint8_t *token, const uint8_t *c, uint64_t index, const uint8_t *mark,
               const uint8_t *block, size_t B)
{
    SHA256_CTX running;
    uint8_t index_bytes[4], hash[HASH_BYTES];
    put(index_bytes, sizeof index_bytes, index);
    SHA256_Init(&running);
    SHA256_Update(&running, c, KEY_BYTES);
    SHA256_Update(&running, index_bytes, sizeof index_bytes);
    if (mark)
        SHA256_Update(&running, mark, 1);
    SHA256_Update(&running, block, B);
    SHA256_Final(hash, &running);
    for (int i = 0; i < HASH_BYTES; i++)
        token[i] ^= hash[i];
}

/* "In version 2 one mark byte stands between index and block in the hash" */
const uint8_t *mark_in(uint64_t version, const uint8_t *marks, uint64_t e)
{
    return version == 1 ? NULL : marks + e;
}

/* "the xor, over every j and every block of the row drawn"; "rows beyond n are empty and add
 * nothing"; "set-up and proof walk every position drawn" */
struct totals digest(const uint8_t *k, const uint8_t *c, const struct shape *shape,
                     const uint8_t *blocks, const uint8_t *marks, uint8_t *token)
{
    uint64_t d = shape->d, B = shape->B;
    struct totals totals = {0, 0};
    memset(token, 0, TOKEN_BYTES);
    use_draw_key(k);
    for (uint64_t j = 1; j <= shape->r; j++) {
        struct walk walk = permuted(d, j - 1);
        uint64_t row = walk.end + 1;
        totals.turns += walk.turns;
        for (uint64_t column = 0; column * d + row <= shape->n; column++) {
            uint64_t m = column * d + row;
            mix_block(token, c, column * d + j, mark_in(shape->version, marks, m - 1),
                      blocks + (m - 1) * B, B);
            totals.hashes++;
        }
    }
    return totals;
}

/* ---- Token records ---- */

uint8_t *record_at(uint8_t *table, uint64_t i)
{
    return table + (i - 1) * LEGBARO_RECORD_BYTES;
}

/* "nonce ctr then i" */
static void write_nonce(uint8_t *nonce, uint64_t ctr, uint64_t i)
{
    put(put(nonce, 8, ctr), 4, i);
}

void seal(uint8_t *record, uint64_t version, uint64_t ctr, uint64_t i, const uint8_t *token)
{
    uint8_t nonce[NONCE_BYTES];
    int length;
    write_nonce(nonce, ctr, i);
    uint8_t *body = put(put(put_head(record, LEGBARO_RECORD_BYTES, version), 8, ctr), 4, i);
    must(EVP_EncryptInit_ex(sealing, NULL, NULL, NULL, nonce));
    must(EVP_EncryptUpdate(sealing, NULL, &length, record, CLEAR_BYTES));
    must(EVP_EncryptUpdate(sealing, body, &length, token, TOKEN_BYTES));
    must(EVP_EncryptFinal_ex(sealing, body + length, &length));
    must(EVP_CIPHER_CTX_ctrl(sealing, EVP_CTRL_AEAD_GET_TAG, TAG_BYTES, body + TOKEN_BYTES));
}

/* "length 61, version 1", which is now the card's, "the card's ctr, its own i, a tag that holds" */
int open_record(const uint8_t *record, const struct card *c, uint64_t i, uint8_t *token)
{
    uint8_t nonce[NONCE_BYTES], tag[TAG_BYTES];
    const uint8_t *at = after_head(record);
    int length;
    if (!head_fits(record, LEGBARO_RECORD_BYTES, c->version) || take(&at, 8) != c->ctr ||
        take(&at, 4) != i)
        return 0;
    write_nonce(nonce, c->ctr, i);
    memcpy(tag, at + TOKEN_BYTES, TAG_BYTES);
    must(EVP_DecryptInit_ex(opening, NULL, NULL, NULL, nonce));
    must(EVP_CIPHER_CTX_ctrl(opening, EVP_CTRL_AEAD_SET_TAG, TAG_BYTES, tag));
    must(EVP_DecryptUpdate(opening, NULL, &length, record, CLEAR_BYTES));
    must(EVP_DecryptUpdate(opening, token, &length, at, TOKEN_BYTES));
    return EVP_DecryptFinal_ex(opening, token + length, &length) > 0;
}

int reference_token(const uint8_t *master, const struct card *c, const uint8_t *table, uint64_t i,
                    uint8_t *token)
{
    use_keys(master, c->id);
    return open_record(table + (i - 1) * LEGBARO_RECORD_BYTES, c, i, token);
}

struct totals reference_fresh_records(const uint8_t *master, const struct card *c,
                                      const uint8_t *blocks, const uint8_t *marks, uint64_t first,
                                      uint64_t last, uint8_t *table)
{
    struct totals totals = {0, 0};
    struct shape shape = {c->version, c->d, c->r, c->B, c->n};
    uint8_t k[KEY_BYTES], hash_key[KEY_BYTES], token[TOKEN_BYTES];
    use_keys(master, c->id);
    for (uint64_t i = first; i <= last; i++) {
        draw_key_of(i, k);
        hash_key_of(i, hash_key);
        reference_add_totals(&totals, digest(k, hash_key, &shape, blocks, marks, token));
        seal(record_at(table, i), c->version, c->ctr, i, token);
    }
    return totals;
}
