/* The key table's text: its lines, and for its author what is wrong with one that the library refuses. */
#ifndef HOST_TABLE_TEXT_H
#define HOST_TABLE_TEXT_H

#include <stddef.h>
#include <stdint.h>

#include "turretnail.h"

enum { TABLE_SENTENCE = 160 }; /* longer than any reason for refusing a table, without the file's name */

/* The key's digits in the line of this identity, up to the line's end, and the line's number from 1 on; NULL where it is not listed. */
const uint8_t *table_key_text(const uint8_t *table, size_t size, const uint8_t *identity, size_t n, size_t *digits, size_t *number);

/* Says what is wrong with a table that is not well formed: the first line up to which it is not. That line's number, or 0 where the table is only too
 * long. */
size_t table_explain(const uint8_t *table, size_t n, char why[TABLE_SENTENCE]);

#endif
