/* The key table's file. */
#ifndef HOST_TABLE_H
#define HOST_TABLE_H

#include <stdbool.h>
#include <stddef.h>
#include <stdint.h>

#include "table_text.h"
#include "turretnail.h"

/* A well-formed table that was read and is not yet in force. */
struct table {
    uint8_t bytes[TN_TABLE_LIMIT + 1]; /* one more, to find out that a file is too long */
    size_t n;
    uint32_t starts[TN_TABLE_LINES]; /* its list */
    size_t lines;
    bool marked;   /* it begins with a byte order mark */
    bool readable; /* by others than its owner */
};

enum { TABLE_WARNINGS = 2 };

/* Reads the file whole, tests it and makes its list. False where that can't be done; `why` then says what is wrong, and the table is cleared. A table may come
 * through a pipe, but not again: nobody can say how long that takes, and an empty one would retire all gates. */
bool table_read(struct table *table, const char *file, bool again, char why[TABLE_SENTENCE]);

/* What is odd about a table that is well formed, to be said behind its file's name; how many. */
size_t table_warnings(const struct table *table, const char *says[TABLE_WARNINGS]);

#endif
