/* Calls of the library one by one, each on a connection that awaits it: those of our own handshake here, those on records in session.h. */
#ifndef BENCH_PARTS_H
#define BENCH_PARTS_H

#include <stddef.h>
#include <stdint.h>

struct part {
    const char *name;
    int32_t (*call)(void);
    int phase;                /* of the connection that the call is made on */
    void (*ready)(int phase); /* sets that connection */
};

enum { PARTS = 6 };
extern struct part parts[PARTS];

/* Makes a connection in every phase, with the hello of OpenSSL's client. */
void parts_prepare(void);

/* The time of a part's call, which is the state. */
double sample_part(void *state);

/* The measure of the calls: the time of one block of our hash, in a message of 16 KiB. */
double sample_block(void *state);

/* Measures and prints the times of some calls, and each in blocks of our hash, under a heading. */
enum { TIMED_LIMIT = 8 };
void time_calls(const char *title, struct part *calls, size_t n);

/* The same of tn_master, beside the time of as many blocks as the call tells (budget.c). */
void time_budget(void);

#endif
