/*
 * What it costs to leave the records to the library: a login over record calls against one over message calls, and records of 16 KiB against HMAC-SHA-256 of
 * the same bytes, which is the least that each of them has to do. Sealing also copies the content to the output; the others' HMAC does not.
 */
#include <mbedtls/md.h>
#include <mbedtls/version.h>
#include <openssl/crypto.h>
#include <openssl/evp.h>
#include <openssl/hmac.h>
#include <stdio.h>
#include <string.h>

#include "cases.h"
#include "measure.h"
#include "records.h"
#include "session.h"

enum { SAMPLES = 7 };

#define LOGIN_AIM 1.15
#define RECORD_AIM 1.0

static struct login *login;
static uint8_t bytes[SESSION_MAC_INPUT], digest[TN_HASH_SIZE];

static double sample_login(void *state)
{
    return login_sample(login, state, TN_SIDE_SERVER);
}

static double sample_hmac(void *state)
{
    (void)state;
    double from = now();
    int32_t n = tn_hmac(session_key(), TN_RECORD_MAC_SIZE, bytes, sizeof bytes, digest, sizeof digest);
    double taken = now() - from;
    must(n == TN_HASH_SIZE && memcmp(digest, session_mac(), sizeof digest) == 0, "our HMAC is not the record's");
    return taken;
}

static double sample_mbedtls(void *state)
{
    const mbedtls_md_info_t *sha256 = state;
    double from = now();
    int failed = mbedtls_md_hmac(sha256, session_key(), TN_RECORD_MAC_SIZE, bytes, sizeof bytes, digest);
    double taken = now() - from;
    must(!failed && memcmp(digest, session_mac(), sizeof digest) == 0, "mbed TLS's HMAC is not the record's");
    return taken;
}

static double sample_openssl(void *state)
{
    double from = now();
    const uint8_t *given = HMAC(state, session_key(), TN_RECORD_MAC_SIZE, bytes, sizeof bytes, digest, NULL);
    double taken = now() - from;
    must(given != NULL && memcmp(digest, session_mac(), sizeof digest) == 0, "OpenSSL's HMAC is not the record's");
    return taken;
}

static void compare_logins(void)
{
    enum { RECORDS, MESSAGES, LIBCRYPTO, SUBJECTS };
    static struct subject subjects[SUBJECTS] = {
        [RECORDS] = {.name = "record calls", .sample = sample_login, .state = (void *)&session_by_records},
        [MESSAGES] = {.name = "message calls, Finished records by our calls", .sample = sample_login, .state = (void *)&session_by_messages},
        [LIBCRYPTO] = {.name = "message calls, Finished records by libcrypto", .sample = sample_login, .state = (void *)&session_by_libcrypto},
    };
    heading("The server's time for a PSK-NULL-SHA256 login, key block included, microseconds");
    measure(subjects, SUBJECTS, SAMPLES);
    for (size_t i = 0; i < SUBJECTS; i++) {
        print_time(&subjects[i], 1000, "us");
        if (i != RECORDS)
            print_ratio("record calls / this", &subjects[RECORDS], &subjects[i]);
        if (i == MESSAGES)
            print_aim(&subjects[RECORDS], &subjects[i], LOGIN_AIM);
        printf("\n");
    }
}

static void compare_records(void)
{
    enum { HMAC_OF_OURS, MBEDTLS, OPENSSL, CALLS, SUBJECTS = CALLS + 4 };
    static const enum session_part calls[] = {SESSION_SEAL, SESSION_SEND_DATA, SESSION_OPEN, SESSION_TAKE_DATA};
    static struct subject subjects[SUBJECTS] = {
        [HMAC_OF_OURS] = {.name = "tn_hmac", .sample = sample_hmac},
        [MBEDTLS] = {.name = "mbed TLS's HMAC", .sample = sample_mbedtls},
        [OPENSSL] = {.name = "OpenSSL's HMAC, SHA instructions", .sample = sample_openssl},
    };
    subjects[MBEDTLS].state = (void *)mbedtls_md_info_from_type(MBEDTLS_MD_SHA256);
    subjects[OPENSSL].state = (void *)EVP_sha256();
    for (size_t i = CALLS; i < SUBJECTS; i++)
        subjects[i] = (struct subject){.name = session_parts[calls[i - CALLS]].name, .sample = sample_part, .state = &session_parts[calls[i - CALLS]]};
    heading("A record of 16 KiB, microseconds");
    printf("  %s, %s\n", MBEDTLS_VERSION_STRING_FULL, OpenSSL_version(OPENSSL_VERSION));
    measure(subjects, SUBJECTS, SAMPLES);
    for (size_t i = 0; i < SUBJECTS; i++) {
        print_time(&subjects[i], 1000, "us");
        if (i >= CALLS) {
            print_ratio("to mbed TLS's HMAC", &subjects[i], &subjects[MBEDTLS]);
            print_aim(&subjects[i], &subjects[MBEDTLS], RECORD_AIM);
            print_ratio("to OpenSSL's", &subjects[i], &subjects[OPENSSL]);
            print_ratio("to tn_hmac", &subjects[i], &subjects[HMAC_OF_OURS]);
        }
        printf("\n");
    }
}

void bench_sessions(void)
{
    login = session_prepare();
    session_mac_input(bytes);
    time_calls("The record calls of this login, microseconds", session_parts, SESSION_FINISHED + 1);
    compare_records();
    compare_logins();
    records_stop();
}
