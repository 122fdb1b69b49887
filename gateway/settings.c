/* What all connections of a gateway share, the key table in force above all. */
#include "settings.h"

#include <openssl/crypto.h>
#include <string.h>
#include <strings.h>

bool settings_hide(const struct settings *settings)
{
    return settings->rule != TN_RULE_TELL;
}

void table_use(struct settings *settings, struct table *table)
{
    OPENSSL_cleanse(settings->table, sizeof settings->table);
    memcpy(settings->table, table->bytes, table->n);
    settings->table_len = table->n;
    memcpy(settings->starts, table->starts, sizeof settings->starts);
    settings->lines = table->lines;
    OPENSSL_cleanse(table, sizeof *table);
}

/* The library looks the gate up, with room for no key: so it makes none. */
bool table_lists(const struct settings *settings, const uint8_t *identity, size_t n)
{
    uint8_t none[1];
    return tn_table_lookup(settings->table, settings->table_len, settings->starts, TN_TABLE_LINES, settings->lines, identity, n, none, 0) == TN_R1;
}

bool table_keeps(const struct settings *settings, const struct table *fresh, const uint8_t *identity, size_t n)
{
    size_t old_digits, new_digits, number;
    const uint8_t *old_key = table_key_text(settings->table, settings->table_len, identity, n, &old_digits, &number);
    const uint8_t *new_key = table_key_text(fresh->bytes, fresh->n, identity, n, &new_digits, &number);
    return old_key && new_key && old_digits == new_digits && strncasecmp((const char *)old_key, (const char *)new_key, new_digits) == 0;
}
