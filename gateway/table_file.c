/*
 * The key table's file, replaced as a whole.
 *
 * The new table is written to a file beside the old one, gets its rights, is written out to the disk and then renamed: a rename is done or not done.
 * The lock is on the folder, which is there before the table is, stays when the file is replaced, and needs no file that could be left behind. Since
 * only who has the lock makes the file beside the table, one that is found there was left by a program that was killed, and goes.
 */
#include "table_file.h"

#include <errno.h>
#include <fcntl.h>
#include <stdarg.h>
#include <stdio.h>
#include <stdlib.h>
#include <string.h>
#include <sys/file.h>
#include <sys/xattr.h>
#include <time.h>
#include <unistd.h>

#include "streams.h"

#ifndef LOCK_SECONDS
#define LOCK_SECONDS 10 /* so long a lock is waited for; a test can't wait as long */
#endif

enum { LOCK_REST_MS = 10 };

#define BESIDE ".gates-new" /* behind the table's name; nobody else should call a file so, since it is removed */

static const char access_list[] = "system.posix_acl_access";
static const char try_again[] = "mend that and try again";

/* ---- what went wrong */

static bool fail(struct table_file *f, const char *remedy, const char *format, ...) __attribute__((format(printf, 3, 4)));

static bool fail(struct table_file *f, const char *remedy, const char *format, ...)
{
    va_list words;
    va_start(words, format);
    (void)vsnprintf(f->why, sizeof f->why, format, words);
    va_end(words);
    f->remedy = remedy;
    return false;
}

static bool no_regular_file(struct table_file *f)
{
    return fail(f, "name the table's file itself", "it is no regular file");
}

/* ---- reading */

static bool read_all(struct table_file *f)
{
    ssize_t n = 1;
    for (f->n = 0; n > 0 && f->n < sizeof f->bytes; f->n += n > 0 ? (size_t)n : 0)
        n = read(f->fd, f->bytes + f->n, sizeof f->bytes - f->n);
    return n >= 0;
}

/* Opens and reads the file; without `make` there has to be one. */
static bool take_in(struct table_file *f, bool make, int more)
{
    f->fd = openat(f->folder, f->base, O_RDONLY | O_CLOEXEC | O_NOCTTY | O_NONBLOCK | more);
    if (f->fd < 0 && errno == ENOENT)
        return make || fail(f, "look at its name, or make it with add", "there is no such file");
    if (f->fd < 0 || fstat(f->fd, &f->about) != 0)
        return fail(f, try_again, "it can't be read: %s", strerror(errno));
    if (!S_ISREG(f->about.st_mode))
        return no_regular_file(f);
    return read_all(f) || fail(f, try_again, "it can't be read: %s", strerror(errno));
}

bool table_file_read(struct table_file *f, const char *name)
{
    f->folder = AT_FDCWD;
    f->base = name;
    return take_in(f, false, 0);
}

int32_t table_file_list(struct table_file *f)
{
    int32_t lines = tn_table_list(f->bytes, f->n, f->starts, TN_TABLE_LINES);
    f->lines = tn_is_count(lines) ? (size_t)lines : 0;
    return lines;
}

/* ---- the folder and its lock */

/* Finds the file's folder and its name there, links followed. Of a file that is not there yet the name itself says both. */
static bool find(struct table_file *f, const char *name)
{
    struct stat about;
    if (!realpath(name, f->path)) {
        if (errno != ENOENT || strlen(name) >= sizeof f->path)
            return fail(f, try_again, "it can't be reached: %s", strerror(errno));
        if (lstat(name, &about) == 0)
            return fail(f, "name that file itself", "it is a link to a file that is not there");
        memcpy(f->path, name, strlen(name) + 1);
    }
    char *slash = strrchr(f->path, '/');
    f->base = slash ? slash + 1 : f->path;
    const char *folder = !slash ? "." : slash == f->path ? "/" : f->path;
    if (slash)
        *slash = '\0';
    f->folder = open(folder, O_RDONLY | O_DIRECTORY | O_CLOEXEC);
    if (f->folder < 0)
        return fail(f, try_again, "its folder can't be opened: %s", strerror(errno));
    return *f->base != '\0' || no_regular_file(f);
}

static bool lock(struct table_file *f)
{
    const struct timespec rest = {.tv_nsec = LOCK_REST_MS * 1000000L};
    for (int i = 0; i < LOCK_SECONDS * 1000 / LOCK_REST_MS; i++) {
        if (flock(f->folder, LOCK_EX | LOCK_NB) == 0)
            return true;
        if (errno != EWOULDBLOCK)
            return fail(f, try_again, "its folder can't be locked: %s", strerror(errno));
        (void)nanosleep(&rest, NULL);
    }
    return fail(f, "try again when they are done", "others have been editing in its folder for %d s", LOCK_SECONDS);
}

bool table_file_take(struct table_file *f, const char *name, bool make)
{
    f->folder = f->fd = -1;
    f->replaced = false;
    return find(f, name) && lock(f) && take_in(f, make, O_NOFOLLOW);
}

/* ---- replacing */

/* Gives the new file the old one's access list, or none where the old one has none: what it has from its folder could let in others. */
static bool same_access_list(int from, int to)
{
    char list[4096];
    ssize_t n = fgetxattr(from, access_list, list, sizeof list);
    if (n >= 0)
        return fsetxattr(to, access_list, list, (size_t)n, 0) == 0;
    if (errno == ENODATA && fremovexattr(to, access_list) == 0)
        return true;
    return errno == ENODATA || errno == EOPNOTSUPP;
}

/* Owner, group and mode as they were; a first table is its maker's alone, whatever the umask says. */
static bool same_rights(struct table_file *f, int fd)
{
    if (f->fd < 0)
        return fchmod(fd, S_IRUSR | S_IWUSR) == 0 || fail(f, try_again, "the new file's mode can't be set: %s", strerror(errno));
    if (fchown(fd, f->about.st_uid, f->about.st_gid) != 0)
        return fail(f, "try again as its owner or as root", "its owner and group can't be kept: %s", strerror(errno));
    if (!same_access_list(f->fd, fd) || fchmod(fd, f->about.st_mode & 07777) != 0)
        return fail(f, try_again, "its mode can't be kept: %s", strerror(errno));
    return true;
}

/* Opens a new file of that name, where need be after removing one that was left there. */
static int open_beside(int folder, const char *beside)
{
    const int how = O_WRONLY | O_CREAT | O_EXCL | O_CLOEXEC | O_NOCTTY;
    int fd = openat(folder, beside, how, S_IRUSR | S_IWUSR);
    if (fd < 0 && errno == EEXIST && unlinkat(folder, beside, 0) == 0)
        fd = openat(folder, beside, how, S_IRUSR | S_IWUSR);
    return fd;
}

/* Makes the file beside the table, with all that the table's file is to have, down to the disk. */
static bool make_beside(struct table_file *f, const char *beside)
{
    int fd = open_beside(f->folder, beside);
    if (fd < 0)
        return fail(f, try_again, "the new table can't be made beside it, as %s: %s", beside, strerror(errno));
    bool good = write_whole(fd, f->bytes, f->n) || fail(f, try_again, "the new table can't be written: %s", strerror(errno));
    good = good && same_rights(f, fd);
    good = good && (fsync(fd) == 0 || fail(f, try_again, "the new table can't be written to the disk: %s", strerror(errno)));
    if (close(fd) != 0 && good)
        return fail(f, try_again, "the new table can't be written to the disk: %s", strerror(errno));
    return good;
}

bool table_file_replace(struct table_file *f)
{
    char beside[NAME_MAX + 1];
    if (strlen(f->base) + sizeof BESIDE - 1 > NAME_MAX)
        return fail(f, "give it a shorter one", "its name is too long");
    (void)snprintf(beside, sizeof beside, "%s" BESIDE, f->base);
    bool good = make_beside(f, beside);
    if (good && renameat(f->folder, beside, f->folder, f->base) != 0)
        good = fail(f, try_again, "the new table can't be put in its place: %s", strerror(errno));
    if (!good) {
        (void)unlinkat(f->folder, beside, 0);
        return false;
    }
    f->replaced = true;
    if (fsync(f->folder) == 0)
        return true;
    return fail(f, "look at the disk, then at the list", "the new table is in place, but may be lost when the power fails: %s", strerror(errno));
}

void table_file_leave(struct table_file *f)
{
    if (f->fd >= 0)
        close(f->fd);
    if (f->folder >= 0)
        close(f->folder);
    explicit_bzero(f, sizeof *f);
    f->fd = f->folder = -1;
}
