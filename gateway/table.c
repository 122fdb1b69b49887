/* The key table's file: read whole, tested by the library before it is used, which makes the list of its line starts then. */
#include "table.h"

#include <errno.h>
#include <fcntl.h>
#include <openssl/crypto.h>
#include <stdio.h>
#include <string.h>
#include <sys/stat.h>
#include <unistd.h>

/* Reads the open file, as far as the memory goes. */
static bool read_all(struct table *table, int fd)
{
    ssize_t n = 1;
    for (table->n = 0; n > 0 && table->n < sizeof table->bytes; table->n += n > 0 ? (size_t)n : 0)
        n = read(fd, table->bytes + table->n, sizeof table->bytes - table->n);
    return n >= 0;
}

/* Reads the file; false with the reason where that fails. */
static bool read_file(struct table *table, const char *file, bool again, char why[TABLE_SENTENCE])
{
    struct stat about;
    int fd = open(file, O_RDONLY | O_CLOEXEC | O_NOCTTY | (again ? O_NONBLOCK : 0));
    bool known = fd >= 0 && fstat(fd, &about) == 0;
    bool lasting = known && (!again || S_ISREG(about.st_mode));
    bool good = lasting && read_all(table, fd);
    if (!good)
        snprintf(why, TABLE_SENTENCE, "%s", known && !lasting ? "it is no file, and can't be read again" : strerror(errno));
    else
        table->readable = S_ISREG(about.st_mode) && (about.st_mode & (S_IRGRP | S_IROTH)) != 0;
    if (fd >= 0)
        close(fd);
    return good;
}

bool table_read(struct table *table, const char *file, bool again, char why[TABLE_SENTENCE])
{
    bool good = read_file(table, file, again, why);
    int32_t lines = good ? tn_table_list(table->bytes, table->n, table->starts, TN_TABLE_LINES) : 0;
    if (!tn_is_count(lines)) {
        (void)table_explain(table->bytes, table->n, why);
        good = false;
    }
    table->lines = (size_t)lines;
    table->marked = table->n >= 3 && memcmp(table->bytes, "\xef\xbb\xbf", 3) == 0;
    if (!good)
        OPENSSL_cleanse(table, sizeof *table);
    return good;
}

size_t table_warnings(const struct table *table, const char *says[TABLE_WARNINGS])
{
    size_t n = 0;
    if (table->marked)
        says[n++] = "begins with a byte order mark, which counts as part of the first gate's name";
    if (table->readable)
        says[n++] = "has keys and can be read by others than its owner: chmod 600";
    return n;
}
