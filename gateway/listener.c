/* The listening socket, and addresses as text. */
#include "listener.h"

#include <arpa/inet.h>
#include <errno.h>
#include <netinet/tcp.h>
#include <stdio.h>
#include <string.h>
#include <unistd.h>

void address_text(const struct sockaddr_storage *from, char *text, size_t size)
{
    char address[INET6_ADDRSTRLEN] = "?";
    snprintf(text, size, "%s", address);
    if (from->ss_family == AF_INET) {
        const struct sockaddr_in *in = (const struct sockaddr_in *)from;
        inet_ntop(AF_INET, &in->sin_addr, address, sizeof address);
        snprintf(text, size, "%s:%u", address, (unsigned)ntohs(in->sin_port));
    } else if (from->ss_family == AF_INET6) {
        const struct sockaddr_in6 *in6 = (const struct sockaddr_in6 *)from;
        inet_ntop(AF_INET6, &in6->sin6_addr, address, sizeof address);
        snprintf(text, size, "[%s]:%u", address, (unsigned)ntohs(in6->sin6_port));
    }
}

struct origin address_origin(const struct sockaddr_storage *from)
{
    struct origin origin = {.family = 4};
    const struct in6_addr *six = &((const struct sockaddr_in6 *)from)->sin6_addr;
    if (from->ss_family == AF_INET) {
        memcpy(origin.bytes, &((const struct sockaddr_in *)from)->sin_addr, 4);
    } else if (IN6_IS_ADDR_V4MAPPED(six)) {
        memcpy(origin.bytes, six->s6_addr + 12, 4);
    } else {
        origin.family = 6;
        memcpy(origin.bytes, six->s6_addr, sizeof origin.bytes);
    }
    return origin;
}

static bool address_of(const struct options *options, struct sockaddr_storage *at, socklen_t *size)
{
    struct sockaddr_in *in = (struct sockaddr_in *)at;
    struct sockaddr_in6 *in6 = (struct sockaddr_in6 *)at;
    memset(at, 0, sizeof *at);
    if (inet_pton(AF_INET, options->address, &in->sin_addr) == 1) {
        in->sin_family = AF_INET;
        in->sin_port = htons(options->port);
        *size = sizeof *in;
        return true;
    }
    if (inet_pton(AF_INET6, options->address, &in6->sin6_addr) == 1) {
        in6->sin6_family = AF_INET6;
        in6->sin6_port = htons(options->port);
        *size = sizeof *in6;
        return true;
    }
    return false;
}

int listener_open(const struct options *options)
{
    struct sockaddr_storage at;
    socklen_t size;
    int on = 1;
    if (!address_of(options, &at, &size)) {
        fprintf(stderr, "gateway: --address: '%s' is no IPv4 or IPv6 address; --help lists the options\n", options->address);
        return -1;
    }
    int fd = socket(at.ss_family, SOCK_STREAM | SOCK_NONBLOCK | SOCK_CLOEXEC, 0);
    if (fd >= 0)
        setsockopt(fd, SOL_SOCKET, SO_REUSEADDR, &on, sizeof on);
    if (fd < 0 || bind(fd, (const struct sockaddr *)&at, size) != 0 || listen(fd, SOMAXCONN) != 0) {
        fprintf(stderr, "gateway: %s port %u: %s\n", options->address, (unsigned)options->port, strerror(errno));
        if (fd >= 0)
            close(fd);
        return -1;
    }
    return fd;
}

int listener_accept(int listener, struct sockaddr_storage *from, int *trouble)
{
    socklen_t size = sizeof *from;
    int on = 1;
    *trouble = 0;
    memset(from, 0, sizeof *from);
    int fd = accept4(listener, (struct sockaddr *)from, &size, SOCK_NONBLOCK | SOCK_CLOEXEC);
    if (fd >= 0)
        setsockopt(fd, IPPROTO_TCP, TCP_NODELAY, &on, sizeof on);
    else if (errno != EAGAIN && errno != EWOULDBLOCK && errno != EINTR && errno != ECONNABORTED)
        *trouble = errno;
    return fd;
}
