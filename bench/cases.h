/* The cases of the benchmark; each prints its own figures. */
#ifndef BENCH_CASES_H
#define BENCH_CASES_H

void bench_hash(void);
void bench_handshake(void);
void bench_client(void);
void bench_parts(void);
void bench_hellos(void);
void bench_logins(void);
void bench_tables(void);
void bench_edits(void);
void bench_records(void);
void bench_sessions(void);
void bench_stack(void);

/* What a worker (worker.h) of a case does: a time of our hash, or of OpenSSL's, for each question; the bytes of stack of every call. */
#define TASK_OUR_HASH "our-hash"
#define TASK_OPENSSL_HASH "openssl-hash"
#define TASK_STACK "stack"
void task_our_hash(void);
void task_openssl_hash(void);
void task_stack(void);

#endif
