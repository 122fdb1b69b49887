/* Numbers drawn from a seed, and memory that is lent to the library and looked at afterwards. */
#ifndef LENT_H
#define LENT_H

#include <stdbool.h>
#include <stddef.h>
#include <stdint.h>

/* ---- numbers drawn from a seed */

void draw_from(uint64_t seed);
uint64_t draw(void);
size_t below(size_t n);                       /* 0 to n - 1 */
size_t between(size_t least, size_t most);    /* both among them */
bool once_in(size_t n);
void draw_bytes(uint8_t *bytes, size_t n);
size_t draw_length(size_t edge, size_t most); /* mostly short, often near the edge, at times any length up to most */

/* ---- bytes of ours */

struct bytes {
    const uint8_t *at;
    size_t n;
};

#define ANSWER_LIMIT 66000

/* What a call comes to whatever the room is: a refusal, or a count and so many bytes. */
struct answer {
    int32_t said;
    uint8_t bytes[ANSWER_LIMIT];
};

/* ---- lent memory */

/*
 * Each piece has a page that may not be touched on one side, at its very end or front, and known bytes on the other. So a byte that is read or written past
 * the one end stops the program, though the library itself is built without sanitizers; a byte written past the other is found by `finish`.
 */
struct lent {
    uint8_t *bytes;
    size_t n;
    uint8_t *room, *before;
    const uint8_t *now;
    size_t now_n;
    bool at_end;
};

void begin(const char *call);                                 /* nothing is lent yet */
struct lent *lend(struct bytes contents);
struct lent *lend_numbers(const uint32_t *numbers, size_t n); /* of numbers, for `numbers_of` */
uint32_t *numbers_of(const struct lent *l);
struct lent *lend_room(size_t n);                             /* of drawn bytes, for an answer */
struct lent *lend_number(void);                               /* of a drawn number of 64 bits, for `number_of` */
uint64_t *number_of(const struct lent *l);
void becomes(struct lent *l, const uint8_t *now, size_t n);   /* the call is to leave these at the front */
void finish(void);                                            /* all that was lent is as it was, or what it was to become */
void settle(int32_t result, struct lent *out, const struct answer *wanted); /* R1 where the room is short, else the answer; then `finish` */

/* ---- the end of a run that went wrong */

extern const char *run_again; /* how this input is tried again */
extern uint64_t run_seed;
unsigned long calls_made(void);
unsigned long times_seen(const char *call, int32_t said); /* how often a call gave this; counts other than 0, 1, 16 and 46 are all one, 2 */
void seen(int32_t result);                                /* of the call that began last */
void say_where(void);
_Noreturn void fail(const char *format, ...) __attribute__((format(printf, 1, 2)));
void expect_number(int32_t got, int32_t wanted);

#endif
