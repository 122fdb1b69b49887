/* Processes that are asked over a pipe and answer over another. */
#include "worker.h"

#include <fcntl.h>
#include <stdio.h>
#include <stdlib.h>
#include <sys/wait.h>
#include <unistd.h>

#include "measure.h"

const char *earlier_program(void)
{
    return getenv("BENCH_BEFORE");
}

static void become_worker(const struct worker *w, int in, int out)
{
    dup2(in, STDIN_FILENO);
    dup2(out, STDOUT_FILENO);
    if (w->capabilities == NULL)
        unsetenv("OPENSSL_ia32cap");
    else
        setenv("OPENSSL_ia32cap", w->capabilities, 1);
    execl(w->program, "bench", WORKER, w->task, (char *)NULL);
    fprintf(stderr, "bench: %s can't be run\n", w->program);
    _exit(1);
}

void worker_start(struct worker *w)
{
    int ask[2], answer[2];
    must(pipe2(ask, O_CLOEXEC) == 0 && pipe2(answer, O_CLOEXEC) == 0, "no pipes");
    fflush(stdout);
    w->pid = fork();
    must(w->pid >= 0, "no process");
    if (w->pid == 0)
        become_worker(w, ask[0], answer[1]);
    close(ask[0]);
    close(answer[1]);
    w->ask = ask[1];
    w->answer = answer[0];
}

void worker_stop(struct worker *w)
{
    close(w->ask);
    close(w->answer);
    waitpid(w->pid, NULL, 0);
}

void worker_ask(const struct worker *w, void *answer, size_t n)
{
    must(write(w->ask, "", 1) == 1 && read(w->answer, answer, n) == (ssize_t)n, "the worker does not answer");
}

void worker_serve(void (*give_answer)(void))
{
    char asked;
    while (read(STDIN_FILENO, &asked, 1) == 1)
        give_answer();
}

void worker_answer(const void *answer, size_t n)
{
    must(write(STDOUT_FILENO, answer, n) == (ssize_t)n, "the worker can't answer");
}
