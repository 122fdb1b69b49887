/*
 * The places for clients, and who goes where there are too few. A handshake that is not finished, or a connection that is over, can be made to go for another;
 * a gate that is logged in never goes for somebody who is not.
 */
#ifndef HOST_PLACES_H
#define HOST_PLACES_H

#include <netinet/in.h>

#include "connection.h"
#include "rest.h"

/* Where a client comes from, as far as the limit for one address goes: an IPv4 address, or the first 64 bits of an IPv6 one, which are one subscriber's. */
struct origin {
    uint8_t family; /* 4 or 6 */
    uint8_t bytes[8];
};

/* A place for a client. */
struct slot {
    int fd;        /* -1: free */
    bool said_all; /* our side is closed, and what still comes is dropped */
    bool login_reported, later_reported;
    uint64_t turn;         /* counts up with each arrival and each completed login: the smaller, the older */
    unsigned long lines;   /* of those that came, how many have put the deadline off */
    int64_t deadline;      /* in milliseconds */
    struct rest rest;      /* under the rule hide */
    struct origin origin;
    char address[INET6_ADDRSTRLEN + 10];
    struct connection connection;
};

/* All places, `places` of them. */
extern struct slot *slots;
extern size_t places;

/* Makes n free places; false where there is no memory. */
bool places_make(size_t n);

/* Raises the limit of open files to what n clients need, where the system allows that; false, with a line on standard error, where it does not. */
bool places_allowed(size_t n);

/* A free place, or NULL. */
struct slot *place_free(void);
size_t places_in_use(void);

/* Whether the place is in use by a gate that is logged in. */
bool place_logged_in(const struct slot *s);

/* How many unfinished handshakes of this origin there are. */
size_t places_of_origin(const struct origin *origin);

/* Who goes for another client: of this origin an unfinished handshake, with NULL one of all, or, before these, a connection that is over. Of the handshakes
 * that have not even a hello and those that have one the more numerous kind gives its oldest: a crowd that does the one makes no room of those who do the
 * other. NULL: nobody. */
struct slot *place_to_go(const struct origin *origin);

/* Of the logged-in connections of the same gate as s their number, and the oldest. */
size_t places_of_gate(const struct slot *s, struct slot **oldest);

/* The next number for a slot's `turn`. */
uint64_t places_turn(void);

#endif
