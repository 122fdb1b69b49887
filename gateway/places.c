/* The places for clients, and who goes where there are too few. */
#include "places.h"

#include <stdio.h>
#include <stdlib.h>
#include <string.h>
#include <sys/resource.h>

enum { OTHER_FILES = 16 }; /* open beside the clients': the listener, the log, the table while it is read, libcrypto's */

struct slot *slots;
size_t places;

bool places_make(size_t n)
{
    slots = calloc(n, sizeof *slots);
    places = slots ? n : 0;
    for (size_t i = 0; i < places; i++)
        slots[i].fd = -1;
    return slots != NULL;
}

bool places_allowed(size_t n)
{
    struct rlimit files;
    rlim_t wanted = n + OTHER_FILES;
    if (getrlimit(RLIMIT_NOFILE, &files) != 0 || files.rlim_cur >= wanted)
        return true;
    if (files.rlim_max >= wanted) {
        files.rlim_cur = wanted;
        if (setrlimit(RLIMIT_NOFILE, &files) == 0)
            return true;
    }
    fprintf(stderr, "gateway: %zu clients need %llu open files and %llu are allowed: raise the limit (ulimit -n) or give a smaller --clients\n", n,
            (unsigned long long)wanted, (unsigned long long)files.rlim_max);
    return false;
}

struct slot *place_free(void)
{
    for (size_t i = 0; i < places; i++)
        if (slots[i].fd < 0)
            return &slots[i];
    return NULL;
}

size_t places_in_use(void)
{
    size_t n = 0;
    for (size_t i = 0; i < places; i++)
        n += slots[i].fd >= 0;
    return n;
}

bool place_logged_in(const struct slot *s)
{
    return s->fd >= 0 && s->connection.login_outcome == OUTCOME_COMPLETE && !s->connection.ended;
}

/* Whether the place is that of an unfinished handshake of this origin. */
static bool unfinished(const struct slot *s, const struct origin *origin)
{
    return s->fd >= 0 && s->connection.login_outcome == OUTCOME_NONE && memcmp(&s->origin, origin, sizeof *origin) == 0;
}

size_t places_of_origin(const struct origin *origin)
{
    size_t n = 0;
    for (size_t i = 0; i < places; i++)
        n += unfinished(&slots[i], origin);
    return n;
}

/* Whether somebody else may take this place: of an origin the unfinished handshakes, of all the connections that are over too. */
static bool may_go(const struct slot *s, const struct origin *origin)
{
    return origin ? unfinished(s, origin) : s->fd >= 0 && !place_logged_in(s);
}

enum kind { OVER, SILENT, GREETED, KINDS };

static enum kind kind_of(const struct slot *s)
{
    return s->said_all ? OVER : s->connection.suite ? GREETED : SILENT;
}

struct slot *place_to_go(const struct origin *origin)
{
    struct slot *oldest[KINDS] = {NULL};
    size_t count[KINDS] = {0};
    for (size_t i = 0; i < places; i++) {
        if (!may_go(&slots[i], origin))
            continue;
        enum kind kind = kind_of(&slots[i]);
        count[kind]++;
        if (!oldest[kind] || slots[i].turn < oldest[kind]->turn)
            oldest[kind] = &slots[i];
    }
    if (oldest[OVER])
        return oldest[OVER];
    return count[GREETED] > count[SILENT] ? oldest[GREETED] : oldest[SILENT];
}

static bool same_gate(const struct connection *a, const struct connection *b)
{
    return a->identity_len == b->identity_len && memcmp(a->identity, b->identity, a->identity_len) == 0;
}

size_t places_of_gate(const struct slot *s, struct slot **oldest)
{
    size_t n = 0;
    *oldest = NULL;
    for (size_t i = 0; i < places; i++) {
        if (!place_logged_in(&slots[i]) || !same_gate(&s->connection, &slots[i].connection))
            continue;
        n++;
        if (!*oldest || slots[i].turn < (*oldest)->turn)
            *oldest = &slots[i];
    }
    return n;
}

uint64_t places_turn(void)
{
    static uint64_t turns;
    return ++turns;
}
