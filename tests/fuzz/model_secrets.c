/* The secrets a second time, over libcrypto: document 01, "Secrets", RFC 5246 section 5 and RFC 4279 section 2; and how many blocks each takes (P8). */
#include "model.h"

#include <openssl/core_names.h>
#include <openssl/evp.h>
#include <openssl/hmac.h>
#include <openssl/kdf.h>
#include <openssl/params.h>
#include <string.h>

#define KDF_SEED_LIMIT 1000u /* libcrypto's own PRF takes 1,024 bytes of label and seed */
#define MAC_LIMIT 70000u     /* the longest message of an HMAC here */

/* SHA-256, and how many blocks that are: behind the message come a byte 80, zeros and 8 bytes of length, up to a whole block (FIPS 180-4 section 5.1.1). */
static uint64_t digest(struct bytes message, uint8_t out[32])
{
    static EVP_MD *sha256;
    if (!sha256)
        sha256 = EVP_MD_fetch(NULL, "SHA256", NULL);
    if (!EVP_Digest(message.at, message.n, out, NULL, sha256, NULL))
        fail("libcrypto's SHA-256 failed");
    uint64_t padded = message.n + 1 + 8;
    return padded / 64 + (padded % 64 > 0);
}

void model_sha256(struct bytes message, struct answer *a)
{
    digest(message, a->bytes);
    a->said = 32;
}

/* HMAC as RFC 2104 section 2 writes it, and the blocks of its digests: the key's own where that is longer than a block, the inner and the outer one. */
static uint64_t mac(struct bytes key, struct bytes message, uint8_t out[32])
{
    static uint8_t inner[64 + MAC_LIMIT], outer[64 + 32];
    uint8_t filled[64] = {0};
    uint64_t blocks = 0;
    if (message.n > MAC_LIMIT)
        fail("an HMAC of %zu bytes", message.n);
    if (key.n > 64)
        blocks += digest(key, filled);
    else
        memcpy(filled, key.at, key.n);
    for (size_t i = 0; i < 64; i++) {
        inner[i] = (uint8_t)(filled[i] ^ 0x36);
        outer[i] = (uint8_t)(filled[i] ^ 0x5c);
    }
    memcpy(inner + 64, message.at, message.n);
    blocks += digest((struct bytes){inner, 64 + message.n}, outer + 64);
    blocks += digest((struct bytes){outer, sizeof outer}, out);
    return blocks;
}

/* libcrypto's own HMAC has to agree with the one above. */
static void agree_mac(struct bytes key, struct bytes message, const uint8_t out[32])
{
    uint8_t again[32];
    unsigned n = 32;
    if (!HMAC(EVP_sha256(), key.at, (int)key.n, message.at, message.n, again, &n) || n != 32)
        fail("libcrypto's HMAC failed");
    if (memcmp(again, out, 32) != 0)
        fail("libcrypto's HMAC and the one over its SHA-256 differ");
}

void model_hmac(struct bytes key, struct bytes message, struct answer *a)
{
    mac(key, message, a->bytes);
    agree_mac(key, message, a->bytes);
    a->said = 32;
}

/* P_SHA256 as RFC 5246 section 5 writes it: A(0) = seed, A(i) = HMAC(A(i-1)), the output HMAC(A(i) + seed) for i = 1, 2, ..; and the blocks of them all. */
static uint64_t p_hash(struct bytes secret, struct bytes seed, uint8_t *out, size_t n)
{
    static uint8_t joined[32 + 16 + TN_PRF_INPUT_LIMIT];
    uint8_t part[32];
    uint64_t blocks = 0;
    memcpy(joined + 32, seed.at, seed.n);
    for (size_t done = 0; done < n; done += 32) {
        struct bytes before = done == 0 ? seed : (struct bytes){joined, 32};
        blocks += mac(secret, before, part);
        memcpy(joined, part, 32);
        blocks += mac(secret, (struct bytes){joined, 32 + seed.n}, part);
        memcpy(out + done, part, n - done < 32 ? n - done : 32);
    }
    return blocks;
}

/* libcrypto's own PRF, where its limits allow it, has to agree with the one above. */
static void agree(struct bytes secret, struct bytes seed, const uint8_t *out, size_t n)
{
    static EVP_KDF *kdf;
    uint8_t again[TN_PRF_LIMIT];
    char digest[] = "SHA256";
    if (!kdf)
        kdf = EVP_KDF_fetch(NULL, "TLS1-PRF", NULL);
    EVP_KDF_CTX *context = EVP_KDF_CTX_new(kdf);
    OSSL_PARAM parameters[] = {
        OSSL_PARAM_construct_utf8_string(OSSL_KDF_PARAM_DIGEST, digest, 0),
        OSSL_PARAM_construct_octet_string(OSSL_KDF_PARAM_SECRET, (void *)(uintptr_t)secret.at, secret.n),
        OSSL_PARAM_construct_octet_string(OSSL_KDF_PARAM_SEED, (void *)(uintptr_t)seed.at, seed.n),
        OSSL_PARAM_construct_end(),
    };
    if (EVP_KDF_derive(context, again, n, parameters) != 1)
        fail("libcrypto's PRF failed");
    EVP_KDF_CTX_free(context);
    if (memcmp(again, out, n) != 0)
        fail("libcrypto's PRF and the one over its SHA-256 differ");
}

uint64_t model_prf(struct bytes secret, uint8_t label, struct bytes seed, size_t n, struct answer *a)
{
    static const char *const labels[] = {"master secret", "key expansion", "client finished", "server finished"};
    static uint8_t text[16 + TN_PRF_INPUT_LIMIT];
    a->said = TN_R5;
    if (label > 3 || secret.n > 65536 || seed.n > 65536 || n > 256)
        return 0;
    size_t front = strlen(labels[label]);
    memcpy(text, labels[label], front);
    memcpy(text + front, seed.at, seed.n);
    struct bytes whole = {text, front + seed.n};
    uint64_t blocks = p_hash(secret, whole, a->bytes, n);
    if (n > 0 && secret.n > 0 && seed.n <= KDF_SEED_LIMIT)
        agree(secret, whole, a->bytes, n);
    a->said = (int32_t)n;
    return blocks;
}

void model_premaster(struct bytes psk, struct answer *a)
{
    a->said = TN_R5;
    if (psk.n < 1 || psk.n > 64)
        return;
    memset(a->bytes, 0, 4 + psk.n);
    a->bytes[1] = a->bytes[3 + psk.n] = (uint8_t)psk.n;
    memcpy(a->bytes + 4 + psk.n, psk.at, psk.n);
    a->said = (int32_t)(4 + 2 * psk.n);
}

/* Two randoms, one behind the other, as a seed. */
static uint64_t with_randoms(struct bytes secret, uint8_t label, struct bytes first, struct bytes second, size_t n, struct answer *a)
{
    uint8_t seed[64];
    a->said = TN_R5;
    if (first.n != 32 || second.n != 32)
        return 0;
    memcpy(seed, first.at, 32);
    memcpy(seed + 32, second.at, 32);
    return model_prf(secret, label, (struct bytes){seed, 64}, n, a);
}

uint64_t model_master(struct bytes premaster, struct bytes client, struct bytes server, struct answer *a)
{
    return with_randoms(premaster, TN_LABEL_MASTER_SECRET, client, server, 48, a);
}

uint64_t model_blocks(struct bytes psk)
{
    static struct answer premaster, master;
    static const uint8_t any[32];
    model_premaster(psk, &premaster);
    if (premaster.said < 0)
        return 0;
    return model_master((struct bytes){premaster.bytes, (size_t)premaster.said}, (struct bytes){any, 32}, (struct bytes){any, 32}, &master);
}

int32_t model_key_block_length(uint16_t suite)
{
    return suite == 0x00AE ? 96 : suite == 0x008C ? 72 : suite == 0x00B0 ? 64 : 0;
}

void model_key_block(struct bytes master, struct bytes server, struct bytes client, uint16_t suite, struct answer *a)
{
    int32_t n = model_key_block_length(suite);
    a->said = TN_R5;
    if (n > 0 && master.n == 48)
        with_randoms(master, TN_LABEL_KEY_EXPANSION, server, client, (size_t)n, a);
}

void model_finished(uint8_t side, struct bytes master, struct bytes hash, struct answer *a)
{
    a->said = TN_R5;
    if (side <= 1 && master.n == 48 && hash.n == 32)
        model_prf(master, side == 0 ? TN_LABEL_CLIENT_FINISHED : TN_LABEL_SERVER_FINISHED, hash, 12, a);
}
