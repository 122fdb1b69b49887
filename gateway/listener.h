/* The listening socket, and addresses as text. */
#ifndef HOST_LISTENER_H
#define HOST_LISTENER_H

#include <sys/socket.h>

#include "options.h"
#include "places.h"

/* The listening socket, or -1 with a line on standard error. */
int listener_open(const struct options *options);

/* The address and port of a client or of the listener as text. */
void address_text(const struct sockaddr_storage *from, char *text, size_t size);

/* Where a client comes from. */
struct origin address_origin(const struct sockaddr_storage *from);

/* A waiting client's socket and address, or -1 where there is none. Where the system refuses for now, as with too many open files, *trouble is the error. */
int listener_accept(int listener, struct sockaddr_storage *from, int *trouble);

#endif
