/*
 * The benchmark's main program:
 *
 *     bench           every case
 *     bench CASE..    hash, handshake, client, parts, hellos, logins, tables, edits, records, sessions or stack
 *
 * BENCH_BEFORE is the path of the same program linked with an earlier library, where the cases hash and stack are to be compared with it.
 */
#include <stdio.h>
#include <string.h>

#include "cases.h"
#include "measure.h"
#include "turretnail.h"
#include "worker.h"

struct action {
    const char *name;
    void (*run)(void);
};

static const struct action cases[] = {
    {"hash", bench_hash}, {"handshake", bench_handshake}, {"client", bench_client}, {"parts", bench_parts}, {"hellos", bench_hellos},
    {"logins", bench_logins}, {"tables", bench_tables}, {"edits", bench_edits}, {"records", bench_records}, {"sessions", bench_sessions},
    {"stack", bench_stack},
};

static const struct action tasks[] = {{TASK_OUR_HASH, task_our_hash}, {TASK_OPENSSL_HASH, task_openssl_hash}, {TASK_STACK, task_stack}};

enum { CASES = sizeof cases / sizeof *cases, TASKS = sizeof tasks / sizeof *tasks };

static void run_named(const struct action *actions, size_t n, const char *name, const char *otherwise)
{
    for (size_t i = 0; i < n; i++) {
        if (strcmp(actions[i].name, name) == 0) {
            actions[i].run();
            return;
        }
    }
    must(0, otherwise);
}

/* The CPU's kind, since times mean little without it. */
static void print_machine(void)
{
    char line[512];
    FILE *f = fopen("/proc/cpuinfo", "r");
    while (f != NULL && fgets(line, sizeof line, f) != NULL) {
        if (strncmp(line, "model name", 10) == 0) {
            printf("CPU%s", strchr(line, ':'));
            break;
        }
    }
    if (f != NULL)
        fclose(f);
}

/* A linker compares names, not parameters: a library from before the count of blocks would be linked, and called with one argument too many. */
static void test_library(void)
{
    static const uint8_t premaster[TN_PREMASTER_LIMIT], random[TN_RANDOM_SIZE];
    uint8_t master[TN_MASTER_SIZE];
    uint64_t blocks = 0;
    int32_t n = tn_master(premaster, sizeof premaster, random, sizeof random, random, sizeof random, master, sizeof master, &blocks);
    must(n == TN_MASTER_SIZE && blocks > 0, "the library is from before 0.3: its calls have other parameters than those of turretnail.h");
}

int main(int argc, char **argv)
{
    test_library();
    if (argc == 3 && strcmp(argv[1], WORKER) == 0) {
        run_named(tasks, TASKS, argv[2], "a worker has no such task");
        return 0;
    }
    print_machine();
    stay_on_one_core();
    for (int i = 1; i < argc; i++)
        run_named(cases, CASES, argv[i], "the cases are hash, handshake, client, parts, hellos, logins, tables, edits, records, sessions and stack");
    for (size_t i = 0; argc == 1 && i < CASES; i++)
        cases[i].run();
    return 0;
}
