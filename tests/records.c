/*
 * Tests of the gateway's records (gateway/records.c) alone, beside what interop shows: what it sends is taken apart here by libcrypto's own functions, and what it
 * must refuse is made here: every damaged byte, wrong paddings, short fragments, content over the limit.
 */
#include "../gateway/records.h"

#include <openssl/evp.h>
#include <openssl/hmac.h>
#include <stdio.h>
#include <stdlib.h>
#include <string.h>

#include "../gateway/entropy.h"

static unsigned long checks;

#define CHECK(condition)                                                          \
    do {                                                                          \
        checks++;                                                                 \
        if (!(condition)) {                                                       \
            fprintf(stderr, "%s:%d: %s\n", __FILE__, __LINE__, #condition);       \
            exit(1);                                                              \
        }                                                                         \
    } while (0)

static const uint16_t numbers[] = {0x00AE, 0x008C, 0x00B0};

/* A protection with random keys. */
static struct protection fresh(uint16_t number)
{
    const struct suite *suite = suite_of(number);
    uint8_t block[96];
    struct protection client, server;
    CHECK(suite && entropy_fill(block, sizeof block));
    CHECK(protection_cut(suite, block, 2 * suite->mac_size + 2 * suite->cipher_size, &client, &server));
    CHECK(!protection_cut(suite, block, 2 * suite->mac_size + 2 * suite->cipher_size - 1, &client, &server));
    CHECK(memcmp(client.mac_key, block, suite->mac_size) == 0 && memcmp(server.mac_key, block + suite->mac_size, suite->mac_size) == 0);
    return server;
}

/* The MAC, by libcrypto's one call. */
static void mac_of(const struct protection *p, const uint8_t *front, const uint8_t *content, size_t n, uint8_t *out)
{
    static uint8_t text[13 + RECORD_LIMIT];
    unsigned size = 0;
    for (unsigned i = 0; i < 8; i++)
        text[i] = (uint8_t)(p->sequence >> (8 * (7 - i)));
    memcpy(text + 8, front, 3);
    text[11] = (uint8_t)(n / 256);
    text[12] = (uint8_t)(n % 256);
    memcpy(text + 13, content, n);
    CHECK(HMAC(p->suite->mac_size == 20 ? EVP_sha1() : EVP_sha256(), p->mac_key, (int)p->suite->mac_size, text, 13 + n, out, &size));
    CHECK(size == p->suite->mac_size);
}

static void cbc(const struct protection *p, int encrypt, const uint8_t *iv, const uint8_t *from, uint8_t *to, size_t n)
{
    EVP_CIPHER_CTX *ctx = EVP_CIPHER_CTX_new();
    int done = 0;
    CHECK(EVP_CipherInit_ex(ctx, EVP_aes_128_cbc(), NULL, p->cipher_key, iv, encrypt) && EVP_CIPHER_CTX_set_padding(ctx, 0));
    CHECK(EVP_CipherUpdate(ctx, to, &done, from, (int)n) && (size_t)done == n);
    EVP_CIPHER_CTX_free(ctx);
}

/* What is sent is what RFC 5246 says, and opens again. */
static void sent(uint16_t number, size_t n)
{
    static uint8_t content[RECORD_CONTENT_LIMIT], record[RECORD_LIMIT + 1], plain[RECORD_LIMIT];
    struct protection writing = fresh(number), reading = writing;
    size_t mac_size = writing.suite->mac_size, before = writing.suite->cipher_size ? 16 : 0, start, length;
    uint8_t value[RECORD_MAC_LIMIT];
    CHECK(entropy_fill(content, n));
    memset(record, 0xEE, sizeof record);
    size_t size = record_seal(&writing, RECORD_APPLICATION_DATA, content, n, record, RECORD_LIMIT);
    CHECK(size > 0 && record[size] == 0xEE && record[0] == 23 && record[1] == 3 && record[2] == 3);
    CHECK((size_t)record[3] * 256 + record[4] == size - RECORD_HEADER && size <= RECORD_SEAL_OVERHEAD + n);
    CHECK(writing.sequence == 1);
    uint8_t *fragment = record + RECORD_HEADER;
    size_t inner = size - RECORD_HEADER - before;
    if (before)
        cbc(&reading, 0, fragment, fragment + 16, plain, inner);
    else
        memcpy(plain, fragment, inner);
    CHECK(memcmp(plain, content, n) == 0);
    mac_of(&reading, record, content, n, value);
    CHECK(memcmp(plain + n, value, mac_size) == 0);
    CHECK(before ? inner % 16 == 0 && inner - n - mac_size <= 16 : inner == n + mac_size);
    for (size_t i = n + mac_size; i < inner; i++)
        CHECK(plain[i] == inner - n - mac_size - 1);
    CHECK(record_open(&reading, record, size, &start, &length) == RECORD_OPENED && length == n && memcmp(record + start, content, n) == 0);
}

/* Too little room, and a record that is opened twice. */
static void refused_to_send(uint16_t number)
{
    uint8_t content[40] = {0}, record[200], again[200];
    struct protection writing = fresh(number), reading = writing;
    size_t start, length, size = record_seal(&writing, RECORD_HANDSHAKE, content, sizeof content, record, sizeof record);
    CHECK(size > 0);
    for (size_t room = 0; room < size; room++)
        CHECK(record_seal(&writing, RECORD_HANDSHAKE, content, sizeof content, again, room) == 0 && writing.sequence == 1);
    memcpy(again, record, size);
    CHECK(record_open(&reading, record, size, &start, &length) == RECORD_OPENED);
    CHECK(record_open(&reading, again, size, &start, &length) == RECORD_BAD);
    reading.sequence = writing.sequence = UINT64_MAX;
    CHECK(record_seal(&writing, RECORD_HANDSHAKE, content, sizeof content, again, sizeof again) == 0);
    CHECK(record_open(&reading, record, size, &start, &length) == RECORD_FAILED);
}

/* Any bit of any byte but the length's. */
static void damaged(uint16_t number, size_t n)
{
    uint8_t content[100], record[250], hurt[250];
    struct protection writing = fresh(number), first = writing;
    size_t start, length;
    CHECK(entropy_fill(content, sizeof content));
    size_t size = record_seal(&writing, RECORD_ALERT, content, n, record, sizeof record);
    for (size_t at = 0; at < size; at++)
        for (unsigned bit = 0; bit < 8 && at != 3 && at != 4; bit++) {
            struct protection reading = first;
            memcpy(hurt, record, size);
            hurt[at] ^= (uint8_t)(1u << bit);
            CHECK(record_open(&reading, hurt, size, &start, &length) == RECORD_BAD && reading.sequence == 0);
        }
}

/* A record made here: content, right MAC, then `padding` bytes, of which the one at `wrong` (if below padding) is not what it should be. */
static size_t made(const struct protection *p, const uint8_t *content, size_t n, size_t padding, size_t wrong, uint8_t last, uint8_t *record)
{
    static uint8_t plain[RECORD_LIMIT + 512];
    size_t size = n + p->suite->mac_size + padding;
    const uint8_t front[RECORD_HEADER] = {23, 3, 1, (uint8_t)((size + 16) >> 8), (uint8_t)(size + 16)};
    memcpy(record, front, sizeof front);
    memcpy(plain, content, n);
    mac_of(p, front, content, n, plain + n);
    memset(plain + size - padding, last, padding);
    if (wrong < padding)
        plain[size - padding + wrong] ^= 0x40;
    CHECK(entropy_fill(record + RECORD_HEADER, 16));
    cbc(p, 1, record + RECORD_HEADER, plain, record + RECORD_HEADER + 16, size);
    return RECORD_HEADER + 16 + size;
}

/* Every length of padding that fills blocks; the same with one byte of it wrong; and lengths that are not those of the padding. */
static void paddings(uint16_t number)
{
    uint8_t content[64], record[800];
    struct protection first = fresh(number);
    size_t start, length;
    CHECK(entropy_fill(content, sizeof content));
    for (size_t padding = 1; padding <= 256; padding++) {
        size_t n = (16 - (first.suite->mac_size + padding) % 16) % 16 + 16;
        struct protection reading = first;
        size_t size = made(&first, content, n, padding, 999, (uint8_t)(padding - 1), record);
        CHECK(record_open(&reading, record, size, &start, &length) == RECORD_OPENED && length == n && memcmp(record + start, content, n) == 0);
        for (size_t wrong = 0; wrong < padding; wrong++) {
            reading = first;
            size = made(&first, content, n, padding, wrong, (uint8_t)(padding - 1), record);
            CHECK(record_open(&reading, record, size, &start, &length) == RECORD_BAD);
        }
        for (unsigned last = 0; last < 256; last++) {
            reading = first;
            size = made(&first, content, n, padding, 999, (uint8_t)last, record);
            CHECK(record_open(&reading, record, size, &start, &length) == (last == padding - 1 ? RECORD_OPENED : RECORD_BAD));
        }
    }
}

/* Random fragments of every small length. */
static void noise(uint16_t number)
{
    uint8_t record[RECORD_HEADER + 400];
    size_t start, length;
    for (size_t n = 0; n <= 400; n++) {
        struct protection reading = fresh(number);
        CHECK(entropy_fill(record, sizeof record));
        CHECK(record_open(&reading, record, RECORD_HEADER + n, &start, &length) == RECORD_BAD);
    }
}

/* Content over the limit with all else right. */
static void too_long(uint16_t number)
{
    static uint8_t content[RECORD_CONTENT_LIMIT + 16], record[RECORD_LIMIT + 512];
    struct protection reading = fresh(number), first = reading;
    size_t start, length, size;
    CHECK(record_seal(&reading, RECORD_APPLICATION_DATA, content, RECORD_CONTENT_LIMIT + 1, record, sizeof record) == 0);
    for (size_t n = RECORD_CONTENT_LIMIT; n <= RECORD_CONTENT_LIMIT + 16; n += 16) {
        reading = first;
        if (first.suite->cipher_size) {
            size_t padding = 16 - first.suite->mac_size % 16;
            size = made(&first, content, n, padding, 999, (uint8_t)(padding - 1), record);
        } else {
            const uint8_t front[RECORD_HEADER] = {23, 3, 3, (uint8_t)((n + 32) >> 8), (uint8_t)(n + 32)};
            memcpy(record, front, sizeof front);
            memcpy(record + RECORD_HEADER, content, n);
            mac_of(&first, front, content, n, record + RECORD_HEADER + n);
            size = RECORD_HEADER + n + 32;
        }
        CHECK(record_open(&reading, record, size, &start, &length) == (n > RECORD_CONTENT_LIMIT ? RECORD_TOO_LONG : RECORD_OPENED));
    }
}

/* Without protection a record is its content. */
static void in_the_clear(void)
{
    uint8_t record[RECORD_HEADER + 3];
    struct protection none = {0};
    size_t start, length;
    CHECK(record_seal(&none, RECORD_HANDSHAKE, (const uint8_t *)"abc", 3, record, sizeof record) == sizeof record && none.sequence == 0);
    CHECK(memcmp(record, "\x16\x03\x03\x00\x03" "abc", sizeof record) == 0);
    CHECK(record_open(&none, record, sizeof record, &start, &length) == RECORD_OPENED && start == RECORD_HEADER && length == 3);
    CHECK(record_fragment_limit(&none) == RECORD_CONTENT_LIMIT);
    CHECK(!record_type_known(19) && record_type_known(20) && record_type_known(23) && !record_type_known(24));
}

int main(void)
{
    CHECK(records_start());
    CHECK(!suite_of(0x00AF) && !suite_of(0x100AE));
    in_the_clear();
    for (size_t i = 0; i < sizeof numbers / sizeof numbers[0]; i++) {
        for (size_t n = 0; n <= 300; n++)
            sent(numbers[i], n);
        for (size_t n = RECORD_CONTENT_LIMIT - 40; n <= RECORD_CONTENT_LIMIT; n++)
            sent(numbers[i], n);
        for (size_t n = 0; n <= 100; n += 7)
            damaged(numbers[i], n);
        refused_to_send(numbers[i]);
        noise(numbers[i]);
        too_long(numbers[i]);
        if (suite_of(numbers[i])->cipher_size)
            paddings(numbers[i]);
    }
    records_forget();
    records_stop();
    printf("tests/records: %lu checks\n", checks);
    return 0;
}
