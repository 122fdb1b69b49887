/* Opening a CBC record whose MAC is wrong. */
#include "records_time.h"

#include <math.h>
#include <openssl/evp.h>
#include <stdio.h>
#include <stdlib.h>
#include <string.h>
#include <x86intrin.h>

#include "cases.h"
#include "entropy.h"
#include "measure.h"
#include "records.h"
#include "turretnail.h"

enum {
    PLAIN = 320,
    RECORD = RECORD_HEADER + RECORD_IV + PLAIN,
    STEP = 17, /* from one padding to the next */
    KINDS = 17, /* paddings of 1, 18, .. 256 bytes; the last is a bad one */
    ROUNDS_LIMIT = 10001
};

static uint8_t records[KINDS][RECORD];
static int64_t beside[KINDS][ROUNDS_LIMIT]; /* cycles beyond the median of the same round */
static int64_t middles[ROUNDS_LIMIT];       /* that median */

/* A record under the protection: noise, which holds no right MAC, and behind it a padding of so many bytes; over 256: a bad one. */
static void make(const struct protection *p, size_t padding, uint8_t record[RECORD])
{
    uint8_t plain[PLAIN], *iv = record + RECORD_HEADER;
    const uint8_t front[RECORD_HEADER] = {RECORD_APPLICATION_DATA, 3, 3, (RECORD_IV + PLAIN) >> 8, (RECORD_IV + PLAIN) & 0xff};
    int n = 0;
    EVP_CIPHER_CTX *aes = EVP_CIPHER_CTX_new();
    must(entropy_fill(plain, sizeof plain) && entropy_fill(iv, RECORD_IV), "no randomness");
    memcpy(record, front, sizeof front);
    for (size_t i = 1; i <= padding && padding <= 256; i++)
        plain[PLAIN - i] = (uint8_t)(padding - 1);
    if (padding > 256)
        plain[PLAIN - 1] = (uint8_t)~plain[PLAIN - 2] | 1;
    must(aes && EVP_EncryptInit_ex(aes, EVP_aes_128_cbc(), NULL, p->cipher_key, iv) && EVP_CIPHER_CTX_set_padding(aes, 0)
             && EVP_EncryptUpdate(aes, iv + RECORD_IV, &n, plain, PLAIN) && n == PLAIN,
         "no record");
    EVP_CIPHER_CTX_free(aes);
}

static int64_t sample(const struct protection *p, const uint8_t *record)
{
    uint8_t bytes[RECORD];
    struct protection reading = *p;
    size_t start, length;
    memcpy(bytes, record, sizeof bytes);
    _mm_lfence();
    uint64_t from = __rdtsc();
    enum record_verdict verdict = record_open(&reading, bytes, sizeof bytes, &start, &length);
    _mm_lfence();
    uint64_t to = __rdtsc();
    must(verdict == RECORD_BAD, "a record with a wrong MAC was opened");
    return (int64_t)(to - from);
}

static int by_size(const void *a, const void *b)
{
    int64_t x = *(const int64_t *)a, y = *(const int64_t *)b;
    return (x > y) - (x < y);
}

static int64_t middle_of(int64_t *values, size_t n)
{
    qsort(values, n, sizeof *values, by_size);
    return values[n / 2];
}

/* The mean of the middle half. */
static double inner_mean(int64_t *values, size_t n)
{
    double sum = 0;
    qsort(values, n, sizeof *values, by_size);
    for (size_t i = n / 4; i < n - n / 4; i++)
        sum += (double)values[i];
    return sum / (double)(n - n / 4 - n / 4);
}

static size_t drawn(size_t below)
{
    static uint64_t state = 0x9e3779b97f4a7c15;
    state ^= state << 13;
    state ^= state >> 7;
    state ^= state << 17;
    return (size_t)(state % below);
}

/* Each kind once, in an order of its own. */
static void take_turns(const struct protection *p, size_t round)
{
    static size_t order[KINDS];
    int64_t taken[KINDS];
    for (size_t i = 0; i < KINDS; i++)
        order[i] = i;
    for (size_t i = KINDS; i > 1; i--) {
        size_t j = drawn(i), kept = order[i - 1];
        order[i - 1] = order[j];
        order[j] = kept;
    }
    for (size_t i = 0; i < KINDS; i++)
        beside[order[i]][round] = taken[i] = sample(p, records[order[i]]);
    middles[round] = middle_of(taken, KINDS);
    for (size_t i = 0; i < KINDS; i++)
        beside[i][round] -= middles[round];
}

/* The spread of the kinds, round by round, so that what slows the machine for a while slows all of them. */
static double spread(const struct protection *p, size_t rounds)
{
    double least = INFINITY, most = -INFINITY;
    for (size_t round = 0; round < rounds; round++)
        take_turns(p, round);
    for (size_t i = 0; i < KINDS; i++) {
        double mean = inner_mean(beside[i], rounds);
        least = mean < least ? mean : least;
        most = mean > most ? mean : most;
    }
    return most - least;
}

struct opening records_opening(uint16_t number, size_t rounds)
{
    struct opening o;
    struct protection client, server;
    const struct suite *suite = suite_of(number);
    uint8_t block[TN_KEY_BLOCK_LIMIT];
    must(rounds <= ROUNDS_LIMIT, "too many rounds");
    must(entropy_fill(block, sizeof block) && protection_cut(suite, block, 2 * suite->mac_size + 2 * suite->cipher_size, &client, &server), "no keys");
    for (size_t i = 0; i < KINDS; i++)
        make(&client, 1 + STEP * i, records[i]);
    o.spread = spread(&client, rounds);
    o.cycles = (double)middle_of(middles, rounds);
    for (size_t i = 1; i < KINDS; i++)
        memcpy(records[i], records[0], sizeof records[i]);
    o.spread_of_one = spread(&client, rounds);
    return o;
}

void bench_records(void)
{
    static const uint16_t numbers[] = {TN_SUITE_PSK_AES_128_CBC_SHA256, TN_SUITE_PSK_AES_128_CBC_SHA};
    must(records_start(), "no cryptography");
    printf("\nOpening a record of %d bytes with a wrong MAC: spread over its paddings, %d rounds\n", RECORD, ROUNDS_LIMIT);
    for (size_t i = 0; i < 2; i++) {
        struct opening o = records_opening(numbers[i], ROUNDS_LIMIT);
        printf("  %-52s %9.0f cycles, spread %.1f; of one record %.1f\n", suite_of(numbers[i])->name, o.cycles, o.spread, o.spread_of_one);
    }
    records_stop();
}
