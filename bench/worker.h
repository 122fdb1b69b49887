/*
 * A process of its own that a case asks for one answer at a time: OpenSSL's hash with other instructions, or what the program with the earlier library
 * measures of that library.
 */
#ifndef BENCH_WORKER_H
#define BENCH_WORKER_H

#include <stddef.h>
#include <sys/types.h>

#define WORKER "worker" /* the first argument of such a process; the second is its task */
#define THIS_PROGRAM "/proc/self/exe"

struct worker {
    const char *program;      /* its path */
    const char *task;         /* a name in bench.c's table */
    const char *capabilities; /* OPENSSL_ia32cap; NULL: not set */
    pid_t pid;
    int ask, answer;
};

/* The path of the same program linked with an earlier library; NULL where there is nothing to compare with. */
const char *earlier_program(void);

void worker_start(struct worker *w);
void worker_stop(struct worker *w);

/* Asks for one answer, of n bytes. */
void worker_ask(const struct worker *w, void *answer, size_t n);

/* In the worker: gives an answer for each byte that comes on its input, each by one call of the second function. */
void worker_serve(void (*give_answer)(void));
void worker_answer(const void *answer, size_t n);

#endif
