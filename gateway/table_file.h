/*
 * The key table's file in the hands of a program that edits it: found, locked, read whole and replaced as a whole. Whoever reads the file meets the
 * old table or the new one, never a part of either, also where the program is killed or the disk is full.
 */
#ifndef HOST_TABLE_FILE_H
#define HOST_TABLE_FILE_H

#include <limits.h>
#include <stdbool.h>
#include <stddef.h>
#include <stdint.h>
#include <sys/stat.h>

#include "turretnail.h"

enum { TABLE_FILE_SENTENCE = 512 }; /* longer than any reason below, which may have a file's name in it */

struct table_file {
    char path[PATH_MAX];               /* the folder's, and behind its end the file's name */
    const char *base;                  /* the file's name in the folder */
    int folder;                        /* open, and locked, until the edit is over */
    int fd;                            /* the file that was read; -1: there is none yet */
    struct stat about;                 /* of that file */
    bool replaced;                     /* the new file has taken its place */
    char why[TABLE_FILE_SENTENCE];     /* where something failed: the reason, */
    const char *remedy;                /* and what can be done about it */
    uint8_t bytes[TN_TABLE_LIMIT + 1]; /* one more, to find out that a file is too long */
    size_t n;
    uint32_t starts[TN_TABLE_LINES];   /* the list of the table's line starts, once table_file_list has made it */
    size_t lines;
};

/* Reads the file whole, to be looked at: without a lock, since it is only ever replaced. False with reason and remedy where that fails, as below. */
bool table_file_read(struct table_file *f, const char *name);

/* Locks the file's folder and reads the file, for an edit. Links are followed: what they lead to is edited. `make`: there may be no file yet. */
bool table_file_take(struct table_file *f, const char *name, bool make);

/* Makes the list of the table that was read, which the library tests for that; what the library answers. */
int32_t table_file_list(struct table_file *f);

/* Puts the first n bytes in the file's place, with the old one's rights. False: the old file is as it was, unless `replaced` says that the new one is
 * there and only the system does not vouch for its lasting. */
bool table_file_replace(struct table_file *f);

/* Closes what is open, and with it ends the lock, and clears all. */
void table_file_leave(struct table_file *f);

#endif
