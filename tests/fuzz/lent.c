/* Numbers drawn from a seed, and memory that is lent to the library and looked at afterwards. */
#include "lent.h"

#include "turretnail.h"

#include <inttypes.h>
#include <stdarg.h>
#include <stdio.h>
#include <stdlib.h>
#include <string.h>
#include <sys/mman.h>

#define PAGE 4096u
#define ROOM (32 * PAGE) /* the longest that is lent has 70,000 bytes */
#define AROUND 64u       /* known bytes beside a piece */
#define PIECES 9u

const char *run_again = "";
uint64_t run_seed;
static uint64_t state;
static struct lent pieces[PIECES];
static size_t used;
static const char *calling = "no call";
static unsigned long calls;

/* ---- numbers drawn from a seed: SplitMix64 */

void draw_from(uint64_t seed)
{
    state = seed;
}

uint64_t draw(void)
{
    uint64_t z = state += 0x9e3779b97f4a7c15u;
    z = (z ^ (z >> 30)) * 0xbf58476d1ce4e5b9u;
    z = (z ^ (z >> 27)) * 0x94d049bb133111ebu;
    return z ^ (z >> 31);
}

size_t below(size_t n)
{
    return (size_t)(draw() % n);
}

size_t between(size_t least, size_t most)
{
    return least + below(most - least + 1);
}

bool once_in(size_t n)
{
    return below(n) == 0;
}

void draw_bytes(uint8_t *bytes, size_t n)
{
    for (size_t i = 0; i < n; i += 8) {
        uint64_t z = draw();
        memcpy(bytes + i, &z, n - i < 8 ? n - i : 8);
    }
}

size_t draw_length(size_t edge, size_t most)
{
    size_t kind = below(16), n = below(150);
    if (kind < 6)
        n = edge < 3 ? below(6) : between(edge - 3, edge + 3);
    else if (kind == 6)
        n = below(most + 1);
    return n < most ? n : most;
}

/* ---- the end of a run that went wrong */

unsigned long calls_made(void)
{
    return calls;
}

void say_where(void)
{
    fprintf(stderr, "in %s, call %lu; seed %" PRIu64 ". Again: %s %" PRIu64 "\n", calling, calls, run_seed, run_again, run_seed);
}

void fail(const char *format, ...)
{
    va_list arguments;
    va_start(arguments, format);
    vfprintf(stderr, format, arguments);
    va_end(arguments);
    fputc('\n', stderr);
    say_where();
    abort();
}

/* ---- what was seen */

static struct tally {
    const char *call;
    int32_t said;
    unsigned long times;
} tallies[400];

unsigned long times_seen(const char *call, int32_t said)
{
    unsigned long times = 0;
    for (size_t i = 0; tallies[i].call; i++)
        if (tallies[i].said == said && strcmp(tallies[i].call, call) == 0)
            times += tallies[i].times;
    return times;
}

void seen(int32_t result)
{
    int32_t said = result <= 1 || result == 16 || result == 46 ? result : 2;
    size_t i = 0;
    while (tallies[i].call && (tallies[i].said != said || tallies[i].call != calling))
        i++;
    if (i + 1 == sizeof tallies / sizeof tallies[0])
        fail("more kinds of results than can be counted");
    tallies[i] = (struct tally){calling, said, tallies[i].times + 1};
}

void expect_number(int32_t got, int32_t wanted)
{
    seen(got);
    if (got != wanted)
        fail("%s gave %d, and %d was to be given", calling, (int)got, (int)wanted);
}

/* ---- lent memory */

/* One piece's pages, of which the first and the last may not be touched. */
static void set_up(struct lent *l)
{
    uint8_t *pages = mmap(NULL, ROOM + 2 * PAGE, PROT_NONE, MAP_PRIVATE | MAP_ANONYMOUS, -1, 0);
    if (pages == MAP_FAILED || mprotect(pages + PAGE, ROOM, PROT_READ | PROT_WRITE) != 0)
        fail("no memory to lend");
    l->room = pages + PAGE;
    l->before = malloc(ROOM);
    if (!l->before)
        fail("no memory to lend");
}

static uint8_t *around(const struct lent *l)
{
    return l->at_end ? l->bytes - AROUND : l->bytes + l->n;
}

/* A known byte that is not the same everywhere, so that copying a neighbour is seen too. */
static uint8_t known(size_t i)
{
    return (uint8_t)(calls * 37 + i * 11 + 0xa5);
}

void begin(const char *call)
{
    calling = call;
    calls++;
    used = 0;
}

static struct lent *piece(size_t n)
{
    if (used == PIECES || n > ROOM - AROUND)
        fail("too much is lent");
    struct lent *l = &pieces[used++];
    if (!l->room)
        set_up(l);
    l->n = n;
    l->at_end = once_in(2);
    l->bytes = l->at_end ? l->room + ROOM - n : l->room;
    l->now = NULL;
    l->now_n = 0;
    for (size_t i = 0; i < AROUND; i++)
        around(l)[i] = known(i);
    return l;
}

struct lent *lend(struct bytes contents)
{
    struct lent *l = piece(contents.n);
    if (contents.n > 0) {
        memcpy(l->bytes, contents.at, contents.n);
        memcpy(l->before, contents.at, contents.n);
    }
    return l;
}

struct lent *lend_numbers(const uint32_t *numbers, size_t n)
{
    return lend((struct bytes){(const uint8_t *)numbers, n * sizeof *numbers});
}

uint32_t *numbers_of(const struct lent *l)
{
    return (uint32_t *)(void *)l->bytes; /* both ends of a piece lie at a page's edge, and it has whole numbers */
}

struct lent *lend_room(size_t n)
{
    struct lent *l = piece(n);
    draw_bytes(l->bytes, n);
    memcpy(l->before, l->bytes, n);
    return l;
}

struct lent *lend_number(void)
{
    return lend_room(sizeof(uint64_t));
}

uint64_t *number_of(const struct lent *l)
{
    return (uint64_t *)(void *)l->bytes; /* at a page's edge, as `numbers_of` */
}

void becomes(struct lent *l, const uint8_t *now, size_t n)
{
    l->now = now;
    l->now_n = n;
}

/* The n bytes at `from` of a piece are the wanted ones. */
static void expect_bytes(const struct lent *l, size_t from, const uint8_t *bytes, size_t n, const char *what)
{
    if (n == 0 || memcmp(l->bytes + from, bytes, n) == 0)
        return;
    size_t i = 0;
    while (l->bytes[from + i] == bytes[i])
        i++;
    fail("%s: byte %zu of piece %td, %s, is %02x and not %02x", calling, from + i, l - pieces, what, l->bytes[from + i], bytes[i]);
}

static void finish_piece(const struct lent *l)
{
    for (size_t i = 0; i < AROUND; i++)
        if (around(l)[i] != known(i))
            fail("%s wrote %s piece %td of the lent memory", calling, l->at_end ? "in front of" : "behind", l - pieces);
    expect_bytes(l, 0, l->now, l->now_n, "to be written");
    expect_bytes(l, l->now_n, l->before + l->now_n, l->n - l->now_n, "not to be written");
}

void finish(void)
{
    for (size_t i = 0; i < used; i++)
        finish_piece(&pieces[i]);
}

void settle(int32_t result, struct lent *out, const struct answer *wanted)
{
    int32_t said = wanted->said;
    if (said >= 0 && (size_t)said > out->n)
        said = TN_R1;
    if (said > 0)
        becomes(out, wanted->bytes, (size_t)said);
    expect_number(result, said);
    finish();
}
