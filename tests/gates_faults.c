/*
 * Faults for a build of gates that tests/gates kills half-way or gives a full disk. It is linked with --wrap for every call below, and so each comes
 * here first. They are counted together, from 1 on. GATES_FAULT in the environment says what happens at which of them, as KIND:NUMBER:K:
 *
 *     before:9:K   signal 9 is sent to the program before call K is made
 *     after:9:K    the same after it
 *     fail:28:K    call K is not made, and fails with errno 28
 *     short:0:K    call K reads or writes one byte only
 *
 * GATES_CALLS names a file descriptor to which the name of each call is written, one a line.
 */
#include <errno.h>
#include <fcntl.h>
#include <signal.h>
#include <stdarg.h>
#include <stdbool.h>
#include <stdio.h>
#include <stdlib.h>
#include <string.h>
#include <sys/resource.h>
#include <sys/stat.h>
#include <unistd.h>

static struct {
    char kind[8];
    int number, k;
} fault;
static int count, calls = -1;

static __attribute__((constructor)) void prepare(void)
{
    const char *wanted = getenv("GATES_FAULT"), *to = getenv("GATES_CALLS");
    if (wanted && sscanf(wanted, "%7[a-z]:%d:%d", fault.kind, &fault.number, &fault.k) != 3)
        abort();
    if (to)
        calls = atoi(to);
}

static bool now(const char *kind)
{
    return count == fault.k && strcmp(fault.kind, kind) == 0;
}

/* A call is to be made; whether it fails instead. */
static bool fails(const char *name)
{
    count++;
    if (calls >= 0)
        dprintf(calls, "%s\n", name);
    if (now("before"))
        raise(fault.number);
    if (!now("fail"))
        return false;
    errno = fault.number;
    return true;
}

/* A call was made, and its errno stays. */
static void made(void)
{
    int error = errno;
    if (now("after"))
        raise(fault.number);
    errno = error;
}

/* How many bytes of n a call is given. */
static size_t given(size_t n)
{
    return now("short") && n > 1 ? 1 : n;
}

#define WRAPPED(type, name, parameters, failed, arguments) \
    type __real_##name parameters; \
    type __wrap_##name parameters; \
    type __wrap_##name parameters \
    { \
        if (fails(#name)) \
            return failed; \
        type result = __real_##name arguments; \
        made(); \
        return result; \
    }

WRAPPED(int, open, (const char *path, int how), -1, (path, how))
WRAPPED(char *, realpath, (const char *path, char *resolved), NULL, (path, resolved))
WRAPPED(int, lstat, (const char *path, struct stat *about), -1, (path, about))
WRAPPED(int, fstat, (int fd, struct stat *about), -1, (fd, about))
WRAPPED(int, flock, (int fd, int how), -1, (fd, how))
WRAPPED(ssize_t, read, (int fd, void *bytes, size_t n), -1, (fd, bytes, given(n)))
WRAPPED(ssize_t, write, (int fd, const void *bytes, size_t n), -1, (fd, bytes, given(n)))
WRAPPED(int, fchown, (int fd, uid_t owner, gid_t group), -1, (fd, owner, group))
WRAPPED(int, fchmod, (int fd, mode_t mode), -1, (fd, mode))
WRAPPED(ssize_t, fgetxattr, (int fd, const char *name, void *value, size_t n), -1, (fd, name, value, n))
WRAPPED(int, fsetxattr, (int fd, const char *name, const void *value, size_t n, int how), -1, (fd, name, value, n, how))
WRAPPED(int, fremovexattr, (int fd, const char *name), -1, (fd, name))
WRAPPED(int, fsync, (int fd), -1, (fd))
WRAPPED(int, renameat, (int from, const char *old, int to, const char *fresh), -1, (from, old, to, fresh))
WRAPPED(int, unlinkat, (int folder, const char *path, int how), -1, (folder, path, how))
WRAPPED(ssize_t, getrandom, (void *bytes, size_t n, unsigned how), -1, (bytes, given(n), how))
WRAPPED(int, setrlimit, (int which, const struct rlimit *limit), -1, (which, limit))
WRAPPED(int, prctl, (int option, unsigned long a, unsigned long b, unsigned long c, unsigned long d), -1, (option, a, b, c, d))

/* With a mode only where a file is made. */
int __real_openat(int folder, const char *path, int how, ...);
int __wrap_openat(int folder, const char *path, int how, ...);
int __wrap_openat(int folder, const char *path, int how, ...)
{
    va_list more;
    va_start(more, how);
    mode_t mode = how & O_CREAT ? va_arg(more, mode_t) : 0;
    va_end(more);
    if (fails("openat"))
        return -1;
    int result = __real_openat(folder, path, how, mode);
    made();
    return result;
}

/* A descriptor is gone also where its closing fails. */
int __real_close(int fd);
int __wrap_close(int fd);
int __wrap_close(int fd)
{
    if (fails("close")) {
        (void)__real_close(fd);
        errno = fault.number;
        return -1;
    }
    int result = __real_close(fd);
    made();
    return result;
}
