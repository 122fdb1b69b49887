/*
 * Times and their ratios on a machine that does other things too: the subjects of a comparison take turns, each turn gives the median of several samples,
 * and a ratio is taken turn by turn, so that what slows the machine for a while slows both sides of it.
 */
#ifndef BENCH_MEASURE_H
#define BENCH_MEASURE_H

#include <stddef.h>

enum { TURNS = 301, WARM_UP = 2 };

/* What is timed. A sample does the work once and gives the nanoseconds of the part that counts. */
struct subject {
    const char *name;
    double (*sample)(void *state);
    void *state;
    double turns[TURNS];
};

/* Median, and the quartiles around it. */
struct spread {
    double low, middle, high;
};

/* The time now in nanoseconds. The clock is the one that is read without a system call: the process's CPU clock takes longer than some of the calls. */
double now(void);

/* Keeps this process and those that it starts on one core, so that both sides of a ratio see the same neighbours. */
void stay_on_one_core(void);

/* Fills the turns of n subjects, with so many samples in a turn. */
void measure(struct subject *subjects, size_t n, size_t samples);

/* Over the turns: a time, and one time divided by another. */
struct spread time_of(const struct subject *s);
struct spread ratio_of(const struct subject *s, const struct subject *to);

/* The heading of a case, with the machine's load. */
void heading(const char *title);

/* Parts of a line: a name and its time divided by `per`; a ratio under a name; whether the median ratio is within an aim. */
void print_time(const struct subject *s, double per, const char *unit);
void print_ratio(const char *name, const struct subject *s, const struct subject *to);
void print_aim(const struct subject *s, const struct subject *to, double aim);

/* How a time and a size have grown since an earlier subject, and whether the time has grown more. */
void print_growth(const struct subject *s, const struct subject *since, double size, double size_then);

/* Ends the program where something that has to hold does not. */
void must(int holds, const char *what);

#endif
