/* TLS 1.2 records (RFC 5246 section 6.2) and their protection by libcrypto. */
#include "records.h"

#include <openssl/core_names.h>
#include <openssl/crypto.h>
#include <openssl/evp.h>
#include <string.h>

#include "entropy.h"
#include "turretnail.h"

enum { BLOCK = 16 };

static const struct suite suites[] = {
    {TN_SUITE_PSK_AES_128_CBC_SHA256, "PSK-AES128-CBC-SHA256", "SHA256", 32, 16},
    {TN_SUITE_PSK_AES_128_CBC_SHA, "PSK-AES128-CBC-SHA", "SHA1", 20, 16},
    {TN_SUITE_PSK_NULL_SHA256, "PSK-NULL-SHA256", "SHA256", 32, 0},
};

/* One of each for the whole program: they are keyed anew for every record, so that a connection's keys stand in its own memory alone. A CBC record that came
 * has a MAC context for itself, see opened_mac. */
static EVP_CIPHER *aes;
static EVP_CIPHER_CTX *cipher;
static EVP_MAC *hmac;
static EVP_MAC_CTX *mac;

const struct suite *suite_of(uint32_t number)
{
    for (size_t i = 0; i < sizeof suites / sizeof suites[0]; i++)
        if (suites[i].number == number)
            return &suites[i];
    return NULL;
}

bool records_start(void)
{
    aes = EVP_CIPHER_fetch(NULL, "AES-128-CBC", NULL);
    cipher = EVP_CIPHER_CTX_new();
    hmac = EVP_MAC_fetch(NULL, "HMAC", NULL);
    mac = hmac ? EVP_MAC_CTX_new(hmac) : NULL;
    return aes && cipher && mac;
}

void records_stop(void)
{
    EVP_MAC_CTX_free(mac);
    EVP_MAC_free(hmac);
    EVP_CIPHER_CTX_free(cipher);
    EVP_CIPHER_free(aes);
}

/* Encrypts or decrypts n bytes in place, n a multiple of the block. */
static bool aes_cbc(const uint8_t *key, const uint8_t *iv, bool encrypt, uint8_t *bytes, size_t n)
{
    int done = 0;
    return EVP_CipherInit_ex2(cipher, aes, key, iv, encrypt, NULL) && EVP_CIPHER_CTX_set_padding(cipher, 0)
           && EVP_CipherUpdate(cipher, bytes, &done, bytes, (int)n) && done == (int)n;
}

/* HMAC over sequence number, type, version, length and content (RFC 5246 section 6.2.3.1), in this context; `front` is the record's first three bytes. Where
 * `public_size` is not 0, the time depends on it and not on n: see opened_mac. */
static bool mac_in(EVP_MAC_CTX *ctx, const struct protection *p, const uint8_t *front, const uint8_t *content, size_t n, size_t public_size, uint8_t *out)
{
    uint8_t head[13];
    for (unsigned i = 0; i < 8; i++)
        head[i] = (uint8_t)(p->sequence >> (56 - 8 * i));
    memcpy(head + 8, front, 3);
    head[11] = (uint8_t)(n >> 8);
    head[12] = (uint8_t)n;
    char digest[16];
    strcpy(digest, p->suite->digest);
    OSSL_PARAM params[] = {OSSL_PARAM_construct_utf8_string(OSSL_MAC_PARAM_DIGEST, digest, 0),
                           OSSL_PARAM_construct_size_t(OSSL_MAC_PARAM_TLS_DATA_SIZE, &public_size), OSSL_PARAM_construct_end()};
    size_t size = 0;
    return EVP_MAC_init(ctx, p->mac_key, p->suite->mac_size, params) && EVP_MAC_update(ctx, head, sizeof head) && EVP_MAC_update(ctx, content, n)
           && EVP_MAC_final(ctx, out, &size, RECORD_MAC_LIMIT) && size == p->suite->mac_size;
}

static bool record_mac(const struct protection *p, const uint8_t *front, const uint8_t *content, size_t n, uint8_t *out)
{
    return mac_in(mac, p, front, content, n, 0, out);
}

/*
 * The same of a CBC record that came, whose n bytes of content are the front of `plain_size` bytes of plaintext. Only the latter is public: n tells how
 * long the padding is. libcrypto's HMAC hashes as many blocks for every n where it is told the public size, and takes one record in a context.
 */
static bool opened_mac(const struct protection *p, const uint8_t *front, const uint8_t *plain, size_t n, size_t plain_size, uint8_t *out)
{
    EVP_MAC_CTX *own = EVP_MAC_CTX_new(hmac);
    bool made = own && mac_in(own, p, front, plain, n, plain_size, out);
    EVP_MAC_CTX_free(own);
    return made;
}

void records_forget(void)
{
    struct protection none = {.suite = &suites[0]};
    uint8_t bytes[RECORD_MAC_LIMIT] = {0};
    (void)aes_cbc(none.cipher_key, none.cipher_key, true, bytes, BLOCK);
    (void)record_mac(&none, bytes, bytes, 0, bytes);
}

bool protection_cut(const struct suite *suite, const uint8_t *block, size_t n, struct protection *client, struct protection *server)
{
    size_t m = suite->mac_size, k = suite->cipher_size;
    if (n != 2 * m + 2 * k)
        return false;
    *client = (struct protection){.suite = suite};
    *server = (struct protection){.suite = suite};
    memcpy(client->mac_key, block, m);
    memcpy(server->mac_key, block + m, m);
    memcpy(client->cipher_key, block + 2 * m, k);
    memcpy(server->cipher_key, block + 2 * m + k, k);
    return true;
}

bool record_type_known(uint8_t type)
{
    return type >= RECORD_CHANGE_CIPHER_SPEC && type <= RECORD_APPLICATION_DATA;
}

size_t record_fragment_limit(const struct protection *p)
{
    if (!p->suite)
        return RECORD_CONTENT_LIMIT;
    if (!p->suite->cipher_size)
        return RECORD_CONTENT_LIMIT + p->suite->mac_size;
    return RECORD_CONTENT_LIMIT + RECORD_IV + p->suite->mac_size + RECORD_PADDING_LIMIT;
}

/* ---- sending */

/* The length of the fragment that n bytes of content become. */
static size_t sealed_length(const struct suite *suite, size_t n)
{
    if (!suite)
        return n;
    if (!suite->cipher_size)
        return n + suite->mac_size;
    return RECORD_IV + (n + suite->mac_size + BLOCK) / BLOCK * BLOCK;
}

/* Puts IV, content, MAC and padding at `fragment`, `size` bytes in all, and encrypts; `front` is the record's first bytes. */
static bool protect(const struct protection *p, const uint8_t *front, const uint8_t *content, size_t n, uint8_t *fragment, size_t size)
{
    size_t before = p->suite->cipher_size ? RECORD_IV : 0;
    uint8_t *place = fragment + before;
    uint8_t value[RECORD_MAC_LIMIT];
    if (!record_mac(p, front, content, n, value))
        return false;
    memcpy(place, content, n);
    memcpy(place + n, value, p->suite->mac_size);
    if (!before)
        return true;
    size_t padding = size - before - n - p->suite->mac_size;
    memset(place + n + p->suite->mac_size, (int)(padding - 1), padding);
    return entropy_fill(fragment, RECORD_IV) && aes_cbc(p->cipher_key, fragment, true, place, size - before);
}

size_t record_seal(struct protection *p, enum record_type type, const uint8_t *content, size_t n, uint8_t *out, size_t room)
{
    if (n > RECORD_CONTENT_LIMIT || p->sequence == UINT64_MAX)
        return 0;
    size_t size = sealed_length(p->suite, n);
    if (room < RECORD_HEADER + size)
        return 0;
    const uint8_t header[RECORD_HEADER] = {(uint8_t)type, 3, 3, (uint8_t)(size >> 8), (uint8_t)size};
    if (p->suite) {
        if (!protect(p, header, content, n, out + RECORD_HEADER, size))
            return 0;
        p->sequence++;
    } else {
        memcpy(out + RECORD_HEADER, content, n);
    }
    memcpy(out, header, RECORD_HEADER);
    return RECORD_HEADER + size;
}

/* ---- receiving */

/* All ones where a < b, else 0, without a branch; both below 2^31. */
static uint32_t below(uint32_t a, uint32_t b)
{
    return (uint32_t)0 - ((a - b) >> 31);
}

/*
 * The length of the padding behind the content, its length byte included, in n bytes of plaintext; 1 and *good = 0 where it is none. The padding's bytes are
 * compared without a branch on them, over all places where a padding may stand.
 */
static uint32_t padding_of(const uint8_t *plain, size_t n, size_t mac_size, uint32_t *good)
{
    uint32_t last = plain[n - 1];
    uint32_t bad = below((uint32_t)(n - mac_size), last + 1);
    size_t places = n < RECORD_PADDING_LIMIT ? n : RECORD_PADDING_LIMIT;
    for (uint32_t i = 0; i < places; i++)
        bad |= below(i, last + 1) & (plain[n - 1 - i] ^ last);
    *good = below(bad & 0xff, 1);
    return 1 + (last & *good);
}

/*
 * Copies the MAC that stands at plain + at to `taken`, with no branch and no address that depends on `at`. Every place where a MAC may stand is read, and its
 * bytes are laid down round and round in a ring of the MAC's length; then the ring is turned, by powers of two, until the MAC's first byte is in front.
 */
static void take_mac(const uint8_t *plain, size_t n, uint32_t at, size_t mac_size, uint8_t *taken)
{
    uint8_t ring[RECORD_MAC_LIMIT] = {0};
    uint32_t size = (uint32_t)mac_size, front = 0;
    size_t places = mac_size + RECORD_PADDING_LIMIT;
    uint32_t first = n < places ? 0 : (uint32_t)(n - places);
    for (uint32_t i = first, spot = 0; i < n; i++, spot = spot + 1 < size ? spot + 1 : 0) {
        ring[spot] |= (uint8_t)(plain[i] & ~below(i, at) & below(i, at + size));
        front |= spot & ~below(i, at) & below(i, at + 1);
    }
    for (uint32_t step = 1; step < size; step *= 2) {
        uint32_t turn = below(0, front & step);
        for (uint32_t i = 0; i < size; i++)
            taken[i] = (uint8_t)((ring[i] & ~turn) | (ring[i + step < size ? i + step : i + step - size] & turn));
        memcpy(ring, taken, mac_size);
    }
}

/* A record without a cipher: content and MAC. */
static enum record_verdict checked(const struct protection *p, const uint8_t *front, const uint8_t *plain, size_t n, size_t *length)
{
    uint8_t value[RECORD_MAC_LIMIT];
    *length = n - p->suite->mac_size;
    if (!record_mac(p, front, plain, *length, value))
        return RECORD_FAILED;
    return CRYPTO_memcmp(value, plain + *length, p->suite->mac_size) ? RECORD_BAD : RECORD_OPENED;
}

/*
 * The content of n bytes of decrypted plaintext, which ends in MAC and padding. Where the padding is bad its length counts as none and the MAC is computed all
 * the same (RFC 5246 section 6.2.3.2). The time depends on n alone, as far as libcrypto's does: `make bench` measures it.
 */
static enum record_verdict checked_padded(const struct protection *p, const uint8_t *front, const uint8_t *plain, size_t n, size_t *length)
{
    uint8_t value[RECORD_MAC_LIMIT], taken[RECORD_MAC_LIMIT];
    size_t mac_size = p->suite->mac_size;
    uint32_t good, padding = padding_of(plain, n, mac_size, &good);
    *length = n - mac_size - padding;
    if (!opened_mac(p, front, plain, *length, n, value))
        return RECORD_FAILED;
    take_mac(plain, n, (uint32_t)*length, mac_size, taken);
    return ((uint32_t)CRYPTO_memcmp(value, taken, mac_size) | ~good) ? RECORD_BAD : RECORD_OPENED;
}

/* Whether a fragment of n bytes can hold what its protection adds. */
static bool long_enough(const struct suite *suite, size_t n)
{
    if (!suite->cipher_size)
        return n >= suite->mac_size;
    return n % BLOCK == 0 && n >= RECORD_IV + suite->mac_size + 1;
}

enum record_verdict record_open(struct protection *p, uint8_t *record, size_t n, size_t *start, size_t *length)
{
    uint8_t *fragment = record + RECORD_HEADER;
    size_t size = n - RECORD_HEADER;
    *start = RECORD_HEADER;
    *length = size;
    if (p->suite) {
        size_t before = p->suite->cipher_size ? RECORD_IV : 0;
        if (!long_enough(p->suite, size))
            return RECORD_BAD;
        if (p->sequence == UINT64_MAX || (before && !aes_cbc(p->cipher_key, fragment, false, fragment + before, size - before)))
            return RECORD_FAILED;
        enum record_verdict verdict = (before ? checked_padded : checked)(p, record, fragment + before, size - before, length);
        if (verdict != RECORD_OPENED)
            return verdict;
        *start += before;
        p->sequence++;
    }
    return *length > RECORD_CONTENT_LIMIT ? RECORD_TOO_LONG : RECORD_OPENED;
}
