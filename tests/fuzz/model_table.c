/* The key table a second time, written from document 01, "The key table", the grammar of RFC 3629 section 4, and the requests for the edits and the list. */
#include "model.h"

#include <stdio.h>
#include <string.h>

/* ---- UTF-8: the grammar's rows, each with the bytes that may come first and second; the others are 80 to BF */

static const struct row {
    uint8_t first[2], second[2];
    size_t size;
} rows[] = {
    {{0x00, 0x7f}, {0x00, 0xff}, 1}, {{0xc2, 0xdf}, {0x80, 0xbf}, 2}, {{0xe0, 0xe0}, {0xa0, 0xbf}, 3},
    {{0xe1, 0xec}, {0x80, 0xbf}, 3}, {{0xed, 0xed}, {0x80, 0x9f}, 3}, {{0xee, 0xef}, {0x80, 0xbf}, 3},
    {{0xf0, 0xf0}, {0x90, 0xbf}, 4}, {{0xf1, 0xf3}, {0x80, 0xbf}, 4}, {{0xf4, 0xf4}, {0x80, 0x8f}, 4},
};

static bool in(uint8_t b, const uint8_t range[2])
{
    return range[0] <= b && b <= range[1];
}

/* The length of the character that stands first, 0 where there is none. */
static size_t character(struct bytes text)
{
    static const uint8_t tail[2] = {0x80, 0xbf};
    for (size_t i = 0; i < sizeof rows / sizeof rows[0]; i++) {
        const struct row *r = &rows[i];
        if (!in(text.at[0], r->first))
            continue;
        if (text.n < r->size)
            return 0;
        bool good = r->size == 1 || in(text.at[1], r->second);
        for (size_t k = 2; k < r->size; k++)
            good = good && in(text.at[k], tail);
        return good ? r->size : 0;
    }
    return 0;
}

bool model_utf8(struct bytes text)
{
    while (text.n > 0) {
        size_t size = character(text);
        if (size == 0)
            return false;
        text.at += size;
        text.n -= size;
    }
    return true;
}

/* ---- lines */

struct line {
    struct bytes text, identity, key; /* the text without its 0A */
};

struct list {
    struct line lines[257]; /* one more than a table may have */
    size_t n;
};

static int hex(uint8_t b)
{
    static const char digits[] = "0123456789abcdef";
    int lower = b >= 'A' && b <= 'F' ? b + 32 : b;
    const char *found = lower == 0 ? NULL : strchr(digits, lower);
    return found ? (int)(found - digits) : -1;
}

static bool is_key(struct bytes text)
{
    bool good = text.n >= 2 && text.n <= 128 && text.n % 2 == 0;
    for (size_t i = 0; good && i < text.n; i++)
        good = hex(text.at[i]) >= 0;
    return good;
}

bool model_identity(struct bytes text)
{
    bool good = text.n >= 1 && text.n <= 128 && model_utf8(text);
    for (size_t i = 0; good && i < text.n; i++)
        good = text.at[i] >= 0x20 && text.at[i] != 0x7f && text.at[i] != ':';
    return good;
}

/* Takes the first line off the table: the bytes before the first 0A, and whether there was one. */
static bool take_line(struct bytes *table, struct bytes *line)
{
    const uint8_t *end = memchr(table->at, '\n', table->n);
    *line = (struct bytes){table->at, end ? (size_t)(end - table->at) : table->n};
    size_t gone = line->n + (end ? 1 : 0);
    table->at += gone;
    table->n -= gone;
    return end != NULL;
}

static bool split(struct line *l)
{
    const uint8_t *colon = l->text.n > 0 ? memchr(l->text.at, ':', l->text.n) : NULL;
    if (!colon)
        return false;
    l->identity = (struct bytes){l->text.at, (size_t)(colon - l->text.at)};
    l->key = (struct bytes){colon + 1, l->text.n - l->identity.n - 1};
    return true;
}

static bool same(struct bytes a, struct bytes b)
{
    return a.n == b.n && (a.n == 0 || memcmp(a.at, b.at, a.n) == 0);
}

/* Which line has the identity; the count of lines where none has. */
static size_t place_of(const struct list *list, struct bytes identity)
{
    size_t i = 0;
    while (i < list->n && !same(list->lines[i].identity, identity))
        i++;
    return i;
}

/* The table's lines; false where it is not well formed. */
static bool take_apart(struct bytes table, struct list *list)
{
    list->n = 0;
    if (table.n > 65536)
        return false;
    while (table.n > 0) {
        struct line l;
        if (list->n == 256 || !take_line(&table, &l.text) || !split(&l) || !model_identity(l.identity) || !is_key(l.key))
            return false;
        if (place_of(list, l.identity) < list->n)
            return false;
        list->lines[list->n++] = l;
    }
    return true;
}

bool model_table_test(struct bytes table)
{
    static struct list list;
    return take_apart(table, &list);
}

/* ---- the list of line starts */

/* The list of a table that was taken apart: each line has its start where its text stands. */
static void starts_of(struct bytes table, const struct list *list, struct starts *starts)
{
    starts->n = starts->count = list->n;
    for (size_t i = 0; i < list->n; i++)
        starts->at[i] = (uint32_t)(list->lines[i].text.at - table.at);
}

bool model_list(struct bytes table, struct starts *starts)
{
    static struct list list;
    bool formed = take_apart(table, &list);
    if (formed)
        starts_of(table, &list, starts);
    return formed;
}

/* Whether a list that is given is this one. */
static bool same_list(const struct starts *given, const struct starts *own)
{
    return given->count <= given->n && given->count == own->count && memcmp(given->at, own->at, own->count * sizeof own->at[0]) == 0;
}

/* R2 and R10, with which everything begins that is given a table and a list; 0 and the table's lines where neither is due. */
static int32_t unusable(struct bytes table, const struct starts *given, struct list *list)
{
    static struct starts own;
    if (!take_apart(table, list))
        return TN_R2;
    starts_of(table, list, &own);
    return same_list(given, &own) ? 0 : TN_R10;
}

int32_t model_keys(const struct keys *keys)
{
    static struct list list;
    return unusable(keys->text, &keys->list, &list);
}

/* The line that stands at a place, as far as the next 0A or the table's end; an empty one where the place is past the table. */
static struct bytes line_at(struct bytes table, size_t at)
{
    struct bytes line, rest = at < table.n ? (struct bytes){table.at + at, table.n - at} : (struct bytes){table.at, 0};
    take_line(&rest, &line);
    return line;
}

/* The first start decides whose line begins with the identity and a colon. */
void model_lookup(const struct keys *keys, struct bytes identity, struct answer *a)
{
    bool within = keys->list.count <= keys->list.n;
    a->said = within ? TN_ALERT_RESULT(115) : TN_R10;
    for (size_t k = 0; within && k < keys->list.count; k++) {
        struct bytes line = line_at(keys->text, keys->list.at[k]);
        if (line.n <= identity.n || line.at[identity.n] != ':' || !same((struct bytes){line.at, identity.n}, identity))
            continue;
        struct bytes key = {line.at + identity.n + 1, line.n - identity.n - 1};
        if (!is_key(key))
            return;
        for (size_t i = 0; i < key.n / 2; i++)
            a->bytes[i] = (uint8_t)(hex(key.at[2 * i]) * 16 + hex(key.at[2 * i + 1]));
        a->said = (int32_t)(key.n / 2);
        return;
    }
}

/* ---- edits: the table is taken apart into its lines, one of them is put in or taken out, and table and list are put together of them anew */

/* The line of an identity and a key, without its 0A. */
static struct bytes line_of(struct bytes identity, struct bytes key)
{
    static char text[300];
    size_t n = identity.n;
    memcpy(text, identity.at, n);
    text[n++] = ':';
    for (size_t i = 0; i < key.n; i++)
        n += (size_t)sprintf(text + n, "%02x", key.at[i]);
    return (struct bytes){(const uint8_t *)text, n};
}

static void change_list(struct list *list, enum edit kind, size_t place, struct bytes text)
{
    switch (kind) {
    case ADD: list->lines[list->n++].text = text; break;
    case REPLACE: list->lines[place].text = text; break;
    default:
        for (list->n--; place < list->n; place++)
            list->lines[place] = list->lines[place + 1];
    }
}

/* The table of these lines, and its list at the front of the list's memory, as far as that goes. */
static void put_together(const struct list *list, struct edited *e)
{
    size_t n = 0;
    for (size_t i = 0; i < list->n; i++) {
        struct bytes text = list->lines[i].text;
        if (i < e->list.n)
            e->list.at[i] = (uint32_t)n;
        memcpy(e->table.bytes + n, text.at, text.n);
        n += text.n;
        e->table.bytes[n++] = '\n';
    }
    e->table.said = (int32_t)n;
    e->list.count = list->n;
}

void model_edit(struct bytes memory, size_t length, const struct starts *given, enum edit kind, struct bytes identity, struct bytes key, struct edited *e)
{
    static struct list list;
    bool bad_key = kind != RETIRE && (key.n < 1 || key.n > 64);
    int32_t *said = &e->table.said;
    e->list = *given;
    *said = length > memory.n ? TN_R2 : unusable((struct bytes){memory.at, length}, given, &list);
    if (*said != 0)
        return;
    size_t place = place_of(&list, identity);
    if (!model_identity(identity) || bad_key) {
        *said = TN_R5;
    } else if (kind == ADD && place < list.n) {
        *said = TN_R6;
    } else if (kind != ADD && place == list.n) {
        *said = TN_R7;
    } else {
        change_list(&list, kind, place, kind == RETIRE ? identity : line_of(identity, key));
        put_together(&list, e);
        if (list.n > 256 || *said > 65536)
            *said = TN_R8;
        else if (list.n > given->n)
            *said = TN_R1;
    }
}
