/*
 * The battery budget of a login's master secret: the blocks that tn_master tells for a key, as long as they take in a long message, and beside that the whole
 * call, which also sets up each HMAC and pads what is hashed.
 */
#include <inttypes.h>
#include <stdio.h>

#include "measure.h"
#include "parts.h"
#include "turretnail.h"

enum { SAMPLES = 7, KEYS = 3, NAME = 40 };

/* A premaster secret, and what was told of the master secret that it gave. */
struct derivation {
    size_t key_len;
    char name[NAME];
    uint8_t premaster[TN_PREMASTER_LIMIT];
    size_t premaster_len;
    uint64_t blocks;
};

static struct derivation derivations[KEYS] = {{.key_len = 16}, {.key_len = 32}, {.key_len = TN_PSK_LIMIT}};

static double sample_master(void *state)
{
    static const uint8_t random[TN_RANDOM_SIZE];
    struct derivation *d = state;
    uint8_t master[TN_MASTER_SIZE];
    d->blocks = 0;
    double from = now();
    int32_t n = tn_master(d->premaster, d->premaster_len, random, sizeof random, random, sizeof random, master, sizeof master, &d->blocks);
    double taken = now() - from;
    must(n == TN_MASTER_SIZE && d->blocks > 0, "no master secret, or no count of its blocks");
    return taken;
}

static void prepare(struct derivation *d)
{
    static const uint8_t key[TN_PSK_LIMIT] = {4};
    int32_t n = tn_premaster(key, d->key_len, d->premaster, sizeof d->premaster);
    must(n > 0, "no premaster secret");
    d->premaster_len = (size_t)n;
    snprintf(d->name, sizeof d->name, "tn_master, a key of %zu bytes", d->key_len);
}

/* The end of a call's line: its blocks, each as long as in the same turn's long message, and how many times that the call took. */
static void print_budget(const struct subject *call, const struct subject *block, uint64_t blocks)
{
    static struct subject budget;
    for (size_t i = 0; i < TURNS; i++)
        budget.turns[i] = (double)blocks * block->turns[i];
    struct spread t = time_of(&budget);
    printf("   %" PRIu64 " blocks %.2f us (%.2f to %.2f)", blocks, t.middle / 1000, t.low / 1000, t.high / 1000);
    print_ratio("call / blocks", call, &budget);
}

void time_budget(void)
{
    static struct subject subjects[KEYS + 1];
    struct subject *block = &subjects[KEYS];
    for (size_t i = 0; i < KEYS; i++) {
        prepare(&derivations[i]);
        subjects[i] = (struct subject){.name = derivations[i].name, .sample = sample_master, .state = &derivations[i]};
    }
    *block = (struct subject){.name = "one block of SHA-256, in a message of 16 KiB", .sample = sample_block};
    heading("The battery budget of a master secret: the call, and its blocks by the time of one");
    measure(subjects, KEYS + 1, SAMPLES);
    print_time(block, 1, "ns");
    printf("\n");
    for (size_t i = 0; i < KEYS; i++) {
        print_time(&subjects[i], 1000, "us");
        print_budget(&subjects[i], block, derivations[i].blocks);
        printf("\n");
    }
}
