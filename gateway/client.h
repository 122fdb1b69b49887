/* A client over its socket. */
#ifndef HOST_CLIENT_H
#define HOST_CLIENT_H

#include "options.h"
#include "places.h"

/* Of the whole gateway. */
extern struct settings settings;
extern struct options options;

/* The events that the client's socket is to be polled for. */
short client_events(const struct slot *s);

/* Moves bytes after these events, and closes or frees the place where the connection is over. */
void client_serve(struct slot *s, short events);

/* Ends the connection with close_notify, and where even that can't be sent in time, without. Of one that is over already the place is freed. */
void client_end(struct slot *s, enum outcome why);

/* The same, and frees the place now, without waiting until the client closes its side. */
void client_end_at_once(struct slot *s, enum outcome why);

#endif
