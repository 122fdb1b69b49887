/* Connecting to a server, by name or address, within a time limit. */
#include "dial.h"

#include <errno.h>
#include <netdb.h>
#include <netinet/tcp.h>
#include <poll.h>
#include <string.h>
#include <sys/socket.h>
#include <unistd.h>

#include "clock.h"

/* Waits until the socket is connected, until then; 0 or the error. */
static int connected(int fd, int64_t until)
{
    struct pollfd ready = {.fd = fd, .events = POLLOUT};
    for (int64_t left; (left = until - milliseconds()) > 0;) {
        int n = poll(&ready, 1, (int)left);
        if (n < 0 && errno != EINTR)
            return errno;
        int error = 0;
        socklen_t size = sizeof error;
        if (n > 0)
            return getsockopt(fd, SOL_SOCKET, SO_ERROR, &error, &size) == 0 ? error : errno;
    }
    return ETIMEDOUT;
}

/* A socket that is connected to this address, or -1 with the error. */
static int try_address(const struct addrinfo *at, int64_t until, int *error)
{
    int on = 1, fd = socket(at->ai_family, at->ai_socktype | SOCK_NONBLOCK | SOCK_CLOEXEC, at->ai_protocol);
    *error = 0;
    if (fd < 0 || connect(fd, at->ai_addr, at->ai_addrlen) != 0)
        *error = errno;
    if (*error == EINPROGRESS)
        *error = connected(fd, until);
    if (*error == 0) {
        (void)setsockopt(fd, IPPROTO_TCP, TCP_NODELAY, &on, sizeof on);
        return fd;
    }
    if (fd >= 0)
        close(fd);
    return -1;
}

/* Each address in its order; one that does not answer leaves the later ones their part of the time. The last error is told. */
static int try_all(const struct addrinfo *found, int64_t until, int *error)
{
    int64_t left = 0;
    for (const struct addrinfo *at = found; at; at = at->ai_next)
        left++;
    int fd = -1;
    for (const struct addrinfo *at = found; at && fd < 0; at = at->ai_next, left--) {
        int64_t now = milliseconds();
        fd = try_address(at, now + (until - now) / left, error);
    }
    return fd;
}

enum dialled dial(const char *host, const char *port, unsigned seconds, int *fd, const char **why)
{
    const struct addrinfo wanted = {.ai_socktype = SOCK_STREAM, .ai_flags = AI_NUMERICSERV};
    struct addrinfo *found = NULL;
    int error = getaddrinfo(host, port, &wanted, &found);
    if (error != 0) {
        *why = error == EAI_SYSTEM ? strerror(errno) : gai_strerror(error);
        return DIAL_NOT_FOUND;
    }
    *fd = try_all(found, milliseconds() + 1000 * (int64_t)seconds, &error);
    freeaddrinfo(found);
    if (*fd >= 0)
        return DIAL_CONNECTED;
    *why = strerror(error);
    return error == ETIMEDOUT ? DIAL_TIME_OUT : DIAL_REFUSED;
}
