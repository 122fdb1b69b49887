/* Edits of a key table and its list, each made on memory that holds both for it. */
#ifndef BENCH_EDITS_H
#define BENCH_EDITS_H

#include <stdint.h>

#include "turretnail.h"

struct edit {
    const char *name;
    int32_t (*call)(void);
    size_t lines, first_key; /* of the table, and bytes of its first line's key */
    size_t line, key;        /* whose identity is given, and bytes of the key that is */
    size_t size;
    uint8_t text[TN_TABLE_LIMIT];
    uint32_t starts[TN_TABLE_LINES]; /* its list */
};

enum { EDITS = 5 };
extern struct edit edits[EDITS]; /* of a full table */

/* Makes the tables. */
void edits_prepare(void);

/* Sets the memory on which the edit's call works. */
void edit_ready(const struct edit *e);

/* tn_table_test and tn_table_list of the table in that memory, and the lookup of the identity that is edited, which has to be listed. */
int32_t edit_test(void);
int32_t edit_list(void);
int32_t edit_look_up(void);

#endif
