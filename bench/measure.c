/* Times and their ratios. */
#include "measure.h"

#include <sched.h>
#include <stdio.h>
#include <stdlib.h>
#include <time.h>

enum { SAMPLES_LIMIT = 64 };

#define TOLERANCE 0.03 /* of a growth, for the error of measurement */

double now(void)
{
    struct timespec t;
    clock_gettime(CLOCK_MONOTONIC, &t);
    return (double)t.tv_sec * 1e9 + (double)t.tv_nsec;
}

void must(int holds, const char *what)
{
    if (holds)
        return;
    fprintf(stderr, "bench: %s\n", what);
    exit(1);
}

void stay_on_one_core(void)
{
    cpu_set_t one;
    CPU_ZERO(&one);
    CPU_SET((size_t)sched_getcpu(), &one);
    must(sched_setaffinity(0, sizeof one, &one) == 0, "the process can't stay on a core");
}

static int by_size(const void *a, const void *b)
{
    double x = *(const double *)a, y = *(const double *)b;
    return (x > y) - (x < y);
}

static struct spread spread_of(double *values, size_t n)
{
    qsort(values, n, sizeof *values, by_size);
    return (struct spread){values[n / 4], values[n / 2], values[n - 1 - n / 4]};
}

static double turn_of(const struct subject *s, size_t samples)
{
    double taken[SAMPLES_LIMIT];
    for (size_t i = 0; i < WARM_UP; i++)
        (void)s->sample(s->state);
    for (size_t i = 0; i < samples; i++)
        taken[i] = s->sample(s->state);
    return spread_of(taken, samples).middle;
}

void measure(struct subject *subjects, size_t n, size_t samples)
{
    must(samples <= SAMPLES_LIMIT, "too many samples in a turn");
    for (size_t turn = 0; turn < TURNS; turn++)
        for (size_t i = 0; i < n; i++)
            subjects[i].turns[turn] = turn_of(&subjects[i], samples);
}

struct spread time_of(const struct subject *s)
{
    double values[TURNS];
    for (size_t i = 0; i < TURNS; i++)
        values[i] = s->turns[i];
    return spread_of(values, TURNS);
}

struct spread ratio_of(const struct subject *s, const struct subject *to)
{
    double values[TURNS];
    for (size_t i = 0; i < TURNS; i++)
        values[i] = s->turns[i] / to->turns[i];
    return spread_of(values, TURNS);
}

void heading(const char *title)
{
    double load[3] = {0, 0, 0};
    (void)getloadavg(load, 3);
    printf("\n%s\n  load of the last 1, 5 and 15 minutes: %.2f %.2f %.2f; median of %d turns (quartiles)\n", title, load[0], load[1], load[2], TURNS);
    fflush(stdout);
}

void print_time(const struct subject *s, double per, const char *unit)
{
    struct spread t = time_of(s);
    printf("  %-52s %9.2f %s (%.2f to %.2f)", s->name, t.middle / per, unit, t.low / per, t.high / per);
}

void print_ratio(const char *name, const struct subject *s, const struct subject *to)
{
    struct spread r = ratio_of(s, to);
    printf("   %s %.3f (%.3f to %.3f)", name, r.middle, r.low, r.high);
}

void print_aim(const struct subject *s, const struct subject *to, double aim)
{
    double ratio = ratio_of(s, to).middle;
    printf("   aim %.2f: %s", aim, ratio <= aim ? "met" : "missed");
    if (ratio > aim)
        printf(" by a factor of %.3f", ratio / aim);
}

void print_growth(const struct subject *s, const struct subject *since, double size, double size_then)
{
    struct spread r = ratio_of(s, since);
    double excess = r.middle / (size / size_then);
    printf("   %.2f times (%.2f to %.2f) for %.2f times the size: ", r.middle, r.low, r.high, size / size_then);
    if (excess <= 1 + TOLERANCE)
        printf("at most linear");
    else
        printf("over linear by a factor of %.2f", excess);
}
