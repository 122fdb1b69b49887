/*
 * Reading hellos of 4, 8 and 16 KiB that are made of four-byte extensions with distinct types: the cost may grow no faster than the size. The types follow one
 * another, but in the last hello they are spread over all numbers, which takes the most passes.
 */
#include <stdio.h>

#include "cases.h"
#include "login.h"
#include "measure.h"

enum { SAMPLES = 5, SIZES = 5, SPREAD = SIZES - 1, FRONT = 47 /* bytes of the hello before its extensions */ };

static const size_t sizes[SIZES] = {64, 4096, 8192, 16384, 16384};
static struct login logins[SIZES];

static double sample_reading(void *state)
{
    const struct login *l = state;
    uint32_t fields[9];
    double from = now();
    int32_t refused = tn_read_client_hello(l->hello, l->hello_len, fields);
    double taken = now() - from;
    must(refused == 0, "the hello is refused");
    return taken;
}

/* The server's call: reading, choosing the suite, the answer, and the hello's part of the transcript. */
static double sample_call(void *state)
{
    double from = now();
    int opened = login_open(state, TN_RULE_TELL);
    double taken = now() - from;
    must(opened, "the server refuses the hello");
    return taken;
}

static void compare(const char *title, double (*sample)(void *))
{
    static struct subject subjects[SIZES];
    static const char *const names[SIZES] = {"64 bytes", "4 KiB", "8 KiB", "16 KiB", "16 KiB, types spread"};
    for (size_t i = 0; i < SIZES; i++)
        subjects[i] = (struct subject){.name = names[i], .sample = sample, .state = &logins[i]};
    heading(title);
    measure(subjects, SIZES, SAMPLES);
    for (size_t i = 0; i < SIZES; i++) {
        print_time(&subjects[i], 1000, "us");
        if (i >= 2 && i < SPREAD)
            print_growth(&subjects[i], &subjects[i - 1], (double)logins[i].hello_len, (double)logins[i - 1].hello_len);
        printf("\n");
    }
}

void bench_hellos(void)
{
    for (size_t i = 0; i < SIZES; i++)
        login_plain_hello(&logins[i], TN_SUITE_PSK_AES_128_CBC_SHA256, (sizes[i] - FRONT) / 4 * 4, i == SPREAD ? 16 : 1);
    compare("Reading a ClientHello of four-byte extensions, microseconds", sample_reading);
    compare("The server's start and its call for such a ClientHello, microseconds", sample_call);
}
