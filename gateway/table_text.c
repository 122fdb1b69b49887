/* The key table's text. Why a table is refused is found here; that it is refused is the library's word. */
#include "table_text.h"

#include <ctype.h>
#include <stdbool.h>
#include <stdio.h>
#include <string.h>

/* ---- lines of a well-formed table */

const uint8_t *table_key_text(const uint8_t *table, size_t size, const uint8_t *identity, size_t n, size_t *digits, size_t *number)
{
    *number = 0;
    for (size_t at = 0, end; at < size; at = end + 1) {
        const uint8_t *found = memchr(table + at, '\n', size - at);
        end = found ? (size_t)(found - table) : size;
        ++*number;
        if (end - at <= n || table[at + n] != ':' || memcmp(table + at, identity, n) != 0)
            continue;
        *digits = end - at - n - 1;
        return table + at + n + 1;
    }
    return NULL;
}

/* ---- what is wrong with a table that is not well formed */

/* Whether the bytes have one for which the test holds. */
static bool any(const uint8_t *bytes, size_t n, int (*test)(int))
{
    for (size_t i = 0; i < n; i++)
        if (test(bytes[i]))
            return true;
    return false;
}

static int no_hex_digit(int byte)
{
    return !isxdigit(byte);
}

static int control(int byte)
{
    return byte < 0x20 || byte == 0x7f;
}

static const char *fault_of_name(const uint8_t *name, size_t n)
{
    if (n == 0)
        return "has no name before its colon";
    if (n > TN_IDENTITY_LIMIT)
        return "has a name of more than 128 bytes";
    if (any(name, n, control))
        return "has a control character in its name";
    return tn_valid_utf8(name, n) == 1 ? NULL : "has a name that is not UTF-8";
}

static const char *fault_of_key(const uint8_t *key, size_t n)
{
    if (n == 0)
        return "has no key behind its colon";
    if (any(key, n, isspace))
        return "has a space in its key or beside it";
    if (any(key, n, no_hex_digit))
        return "has a character in its key that is no hex digit";
    if (n % 2 != 0)
        return "has an odd number of hex digits in its key";
    return n > 2 * TN_PSK_LIMIT ? "has a key of more than 64 bytes" : NULL;
}

/* What is wrong with a line by itself, or NULL. */
static const char *fault_of_line(const uint8_t *line, size_t n)
{
    const uint8_t *colon = n > 0 ? memchr(line, ':', n) : NULL;
    if (n > 0 && line[n - 1] == '\r')
        return "ends in CR LF, and a line here ends in LF alone";
    if (n == 0 || (!colon && strspn((const char *)line, " \t") >= n))
        return "is blank, and each line here is a gate's";
    if (line[0] == '#')
        return "is a comment, and there are none here";
    if (!colon)
        return "has no colon between name and key";
    size_t name = (size_t)(colon - line);
    const char *fault = fault_of_name(line, name);
    return fault ? fault : fault_of_key(colon + 1, n - name - 1);
}

/* Says why line `number`, the n bytes at `at` and a line end, can't stand behind those before it. The number; 0 where only the lines are too many. */
static size_t explain_line(const uint8_t *table, size_t at, size_t n, size_t number, char why[TABLE_SENTENCE])
{
    const char *fault = fault_of_line(table + at, n);
    const uint8_t *colon = memchr(table + at, ':', n);
    size_t digits, first = 0;
    if (!fault && number > TN_TABLE_LINES) {
        snprintf(why, TABLE_SENTENCE, "the key table has more than %d lines", TN_TABLE_LINES);
        return 0;
    }
    if (!fault && colon && table_key_text(table, at, table + at, (size_t)(colon - (table + at)), &digits, &first))
        snprintf(why, TABLE_SENTENCE, "line %zu of the key table names the gate of line %zu again", number, first);
    else
        snprintf(why, TABLE_SENTENCE, "line %zu of the key table %s", number, fault ? fault : "is not well formed");
    return number;
}

size_t table_explain(const uint8_t *table, size_t n, char why[TABLE_SENTENCE])
{
    size_t number = 0, at = 0;
    if (n > TN_TABLE_LIMIT) {
        snprintf(why, TABLE_SENTENCE, "the key table has more than %d bytes", TN_TABLE_LIMIT);
        return 0;
    }
    for (size_t i = 0; i < n; i++) {
        if (table[i] != '\n')
            continue;
        number++;
        if (tn_table_test(table, i + 1) != 0)
            return explain_line(table, at, i - at, number, why);
        at = i + 1;
    }
    snprintf(why, TABLE_SENTENCE, "the last line of the key table has no line end");
    return number + 1;
}
