/* Connecting to a server. */
#ifndef HOST_DIAL_H
#define HOST_DIAL_H

enum dialled { DIAL_CONNECTED, DIAL_NOT_FOUND, DIAL_REFUSED, DIAL_TIME_OUT };

/*
 * Finds the host's addresses, and connects to the first one that answers, within so many seconds for all of them. *fd is then its socket, which does not
 * block. Where the host is not found or every address refuses, *why says so in the system's words. How long it takes to find a name's addresses is the
 * system's alone: it has its own time-outs (resolv.conf).
 */
enum dialled dial(const char *host, const char *port, unsigned seconds, int *fd, const char **why);

#endif
