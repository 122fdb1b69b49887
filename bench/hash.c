/*
 * SHA-256 of messages of 16 KiB, per block of 64 bytes: ours, mbed TLS's portable C, and OpenSSL's with three sets of instructions. OpenSSL chooses its code
 * once, when a process starts, so that its variants run in processes of their own under OPENSSL_ia32cap. Its second number is CPUID leaf 7 (bit 29 SHA, 5 AVX2,
 * 3 and 8 BMI1 and BMI2), its first leaf 1 (bit 60 AVX, bit 41 SSSE3); a bit that is named is switched off. The earlier library, where there is one to
 * compare with, has the same symbols as ours and runs in a process of its own too.
 */
#include <mbedtls/sha256.h>
#include <mbedtls/version.h>
#include <openssl/crypto.h>
#include <openssl/sha.h>
#include <stdint.h>
#include <stdio.h>
#include <string.h>

#include "cases.h"
#include "measure.h"
#include "turretnail.h"
#include "worker.h"

enum { MESSAGE = 16384, BLOCKS = MESSAGE / 64 + 1 /* one of padding */, SAMPLES = 7 };
enum { BEFORE, OURS, MBEDTLS, SUBJECTS = MBEDTLS + 4 }; /* the subjects; OpenSSL's behind mbed TLS. BEFORE is left out where there is no earlier library */

#define WITHOUT_SHA ":~0x20000000"
#define WITHOUT_VECTORS "~0x1000020000000000:~0x20000128"

/*
 * By how much ours may seem slower than the earlier library: the same library twice gave ratios of 0.998 to 1.002 in 24 runs, half of them crowded. It does
 * not cover where the linker puts the block function: 16 bytes behind a multiple of 64 it took 1.06 times as long as at the other three places. Where what is
 * linked before it has kept its size, both have it at the same one.
 */
#define NOISE 0.002

static uint8_t message[MESSAGE];
static uint8_t digest[32];

static double sample_ours(void *state)
{
    (void)state;
    double from = now();
    int32_t n = tn_sha256(message, sizeof message, digest, sizeof digest);
    double taken = now() - from;
    must(n == 32, "our hash is refused");
    return taken;
}

static double sample_mbedtls(void *state)
{
    (void)state;
    double from = now();
    int failed = mbedtls_sha256_ret(message, sizeof message, digest, 0);
    double taken = now() - from;
    must(!failed, "mbed TLS's hash fails");
    return taken;
}

static double sample_openssl(void *state)
{
    (void)state;
    double from = now();
    const uint8_t *given = SHA256(message, sizeof message, digest);
    double taken = now() - from;
    must(given != NULL, "OpenSSL's hash fails");
    return taken;
}

/* Makes the message, of which the three libraries give the same digest. */
static void prepare(void)
{
    uint8_t first[32];
    for (size_t i = 0; i < sizeof message; i++)
        message[i] = (uint8_t)(i * 7 + i / 256);
    (void)sample_ours(NULL);
    memcpy(first, digest, sizeof first);
    (void)sample_mbedtls(NULL);
    must(memcmp(first, digest, sizeof first) == 0, "our digest is not mbed TLS's");
    (void)sample_openssl(NULL);
    must(memcmp(first, digest, sizeof first) == 0, "our digest is not OpenSSL's");
}

/* ---- in a process of its own */

static void answer_sample(double (*sample)(void *state))
{
    for (int i = 0; i < WARM_UP; i++)
        (void)sample(NULL);
    double taken = sample(NULL);
    worker_answer(&taken, sizeof taken);
}

static void answer_ours(void)
{
    answer_sample(sample_ours);
}

static void answer_openssl(void)
{
    answer_sample(sample_openssl);
}

void task_our_hash(void)
{
    prepare();
    worker_serve(answer_ours);
}

void task_openssl_hash(void)
{
    prepare();
    worker_serve(answer_openssl);
}

static double sample_worker(void *state)
{
    double taken = 0;
    worker_ask(state, &taken, sizeof taken);
    return taken;
}

/* ---- */

static void print_row(const struct subject subjects[SUBJECTS], size_t i)
{
    print_time(&subjects[i], BLOCKS, "ns");
    if (i != OURS)
        print_ratio("ours / this", &subjects[OURS], &subjects[i]);
    if (i == MBEDTLS)
        print_aim(&subjects[OURS], &subjects[i], 0.9);
    if (i == BEFORE)
        print_aim(&subjects[OURS], &subjects[i], 1 + NOISE);
    printf("\n");
}

void bench_hash(void)
{
    static struct worker before = {.task = TASK_OUR_HASH};
    static struct worker whole = {.program = THIS_PROGRAM, .task = TASK_OPENSSL_HASH};
    static struct worker vectors = {.program = THIS_PROGRAM, .task = TASK_OPENSSL_HASH, .capabilities = WITHOUT_SHA};
    static struct worker plain = {.program = THIS_PROGRAM, .task = TASK_OPENSSL_HASH, .capabilities = WITHOUT_VECTORS};
    static struct subject subjects[SUBJECTS] = {
        [BEFORE] = {.name = "ours, before", .sample = sample_worker, .state = &before},
        [OURS] = {.name = "ours", .sample = sample_ours},
        [MBEDTLS] = {.name = "mbed TLS, portable C", .sample = sample_mbedtls},
        {.name = "OpenSSL, SHA instructions", .sample = sample_worker, .state = &whole},
        {.name = "OpenSSL, without SHA instructions", .sample = sample_worker, .state = &vectors},
        {.name = "OpenSSL, without SHA, AVX, AVX2, BMI, SSSE3", .sample = sample_worker, .state = &plain},
    };
    before.program = earlier_program();
    size_t first = before.program == NULL ? OURS : BEFORE;
    prepare();
    for (size_t i = first; i < SUBJECTS; i++)
        if (subjects[i].state != NULL)
            worker_start(subjects[i].state);
    heading("SHA-256 of 16 KiB, nanoseconds a block");
    printf("  %s, %s\n", MBEDTLS_VERSION_STRING_FULL, OpenSSL_version(OPENSSL_VERSION));
    measure(&subjects[first], SUBJECTS - first, SAMPLES);
    for (size_t i = first; i < SUBJECTS; i++)
        if (subjects[i].state != NULL)
            worker_stop(subjects[i].state);
    print_row(subjects, OURS);
    if (first == BEFORE)
        print_row(subjects, BEFORE);
    for (size_t i = MBEDTLS; i < SUBJECTS; i++)
        print_row(subjects, i);
}
