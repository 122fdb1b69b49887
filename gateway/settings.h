/* What all connections of a gateway share: the hint, the rule, and the key table that is in force. */
#ifndef HOST_SETTINGS_H
#define HOST_SETTINGS_H

#include <stdbool.h>
#include <stddef.h>
#include <stdint.h>

#include "table.h"
#include "turretnail.h"

struct settings {
    const char *hint; /* empty: none */
    uint8_t rule; /* one of TN_RULE_.. */
    bool proved;  /* the library reads and writes the records too, for PSK-NULL-SHA256 alone */
    uint8_t stand_in[TN_STAND_IN_SIZE];
    uint8_t table[TN_TABLE_LIMIT];
    size_t table_len;
    uint32_t starts[TN_TABLE_LINES]; /* where the table's lines start, for the library; table_use keeps it beside the table */
    size_t lines;
};

/* Whether a client is not to learn which gates there are; it is the library's rule where none is named. */
bool settings_hide(const struct settings *settings);

/* Puts the table into force with its list, and clears the one before and the memory that it was read into. */
void table_use(struct settings *settings, struct table *table);

/* Whether the gate has the same key in the table that is in force and in the one that was read. */
bool table_keeps(const struct settings *settings, const struct table *fresh, const uint8_t *identity, size_t n);

/* Whether the table in force lists the gate. */
bool table_lists(const struct settings *settings, const uint8_t *identity, size_t n);

#endif
