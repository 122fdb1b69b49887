/* The key table, its list of line starts, edits of both and UTF-8 against a parser of their own. */
#include "compare.h"

#include <string.h>

void compare_utf8(struct bytes text)
{
    begin("tn_valid_utf8");
    struct lent *t = lend(text);
    expect_number(tn_valid_utf8(t->bytes, t->n), model_utf8(text) ? 1 : 0);
    finish();
}

static void expect_lookup(const struct keys *keys, struct bytes identity, const struct answer *wanted)
{
    begin("tn_table_lookup");
    struct lent *t = lend(keys->text), *s = lend_numbers(keys->list.at, keys->list.n), *i = lend(identity), *out = lend_room(drawn_room(wanted->said));
    int32_t result = tn_table_lookup(t->bytes, t->n, numbers_of(s), keys->list.n, keys->list.count, i->bytes, i->n, out->bytes, out->n);
    settle(result, out, wanted);
}

static void compare_lookup(const struct keys *keys, struct bytes identity)
{
    static struct answer wanted;
    model_lookup(keys, identity, &wanted);
    expect_lookup(keys, identity, &wanted);
}

/* The table's list made anew, in memory for so many numbers. */
static void compare_list(struct bytes table, size_t room)
{
    static struct starts own;
    int32_t said = model_list(table, &own) ? (int32_t)own.count : TN_R2;
    begin("tn_table_list");
    struct lent *t = lend(table), *s = lend_room(room * sizeof own.at[0]);
    int32_t result = tn_table_list(t->bytes, t->n, numbers_of(s), room);
    if (said > 0 && (size_t)said > room)
        said = TN_R1;
    if (said > 0)
        becomes(s, (const uint8_t *)own.at, own.count * sizeof own.at[0]);
    expect_number(result, said);
    finish();
}

void compare_table(const struct keys *keys, struct bytes identity)
{
    begin("tn_table_test");
    struct lent *t = lend(keys->text);
    expect_number(tn_table_test(t->bytes, t->n), model_table_test(keys->text) ? 0 : TN_R2);
    finish();
    compare_list(keys->text, drawn_room((int32_t)starts_in(keys->text, 0).count));
    compare_lookup(keys, identity);
}

void table_round(void)
{
    struct keys keys = drawn_keys(6);
    for (size_t i = 0; i < 3; i++)
        compare_table(&keys, drawn_identity(0, keys.text));
    for (size_t i = 0; i < 3; i++) { /* each time further from what it was */
        damage_list(&keys.list, keys.text.n);
        compare_lookup(&keys, drawn_identity(0, keys.text));
    }
    compare_utf8(drawn_text(0, draw_length(128, 3000)));
    compare_utf8(drawn(0, between(1, 5)));
}

/* ---- edits */

void memory_set(struct memory *m, struct bytes text, size_t n, const struct starts *list)
{
    m->n = n < MEMORY_LIMIT ? n : MEMORY_LIMIT;
    m->length = text.n;
    m->list = *list;
    memmove(m->bytes, text.at, text.n < m->n ? text.n : m->n); /* the text may stand there already */
    if (text.n < m->n)
        draw_bytes(m->bytes + text.n, m->n - text.n);
}

int32_t memory_edit(struct memory *m, enum edit kind, struct bytes identity, struct bytes key)
{
    static const char *const names[] = {"tn_table_add", "tn_table_replace", "tn_table_retire"};
    static struct edited wanted;
    int32_t result;
    model_edit((struct bytes){m->bytes, m->n}, m->length, &m->list, kind, identity, key, &wanted);
    begin(names[kind]);
    struct lent *l = lend((struct bytes){m->bytes, m->n}), *i = lend(identity), *k = lend(key);
    struct lent *s = lend_numbers(m->list.at, m->list.n), *c = lend((struct bytes){(const uint8_t *)&m->list.count, sizeof m->list.count});
    uint32_t *starts = numbers_of(s);
    size_t room = m->list.n, *count = (size_t *)(void *)c->bytes;
    switch (kind) {
    case ADD: result = tn_table_add(l->bytes, l->n, m->length, starts, room, count, i->bytes, i->n, k->bytes, k->n); break;
    case REPLACE: result = tn_table_replace(l->bytes, l->n, m->length, starts, room, count, i->bytes, i->n, k->bytes, k->n); break;
    default: result = tn_table_retire(l->bytes, l->n, m->length, starts, room, count, i->bytes, i->n);
    }
    if (wanted.table.said >= 0 && (size_t)wanted.table.said <= l->n) {
        becomes(s, (const uint8_t *)wanted.list.at, s->n);
        becomes(c, (const uint8_t *)&wanted.list.count, c->n);
    }
    settle(result, l, &wanted.table);
    memcpy(m->bytes, l->bytes, m->n);
    memcpy(m->list.at, starts, s->n);
    m->list.count = *count;
    if (result >= 0)
        m->length = (size_t)result;
    return result;
}

static const struct bytes odd_name = {(const uint8_t *)ODD, sizeof ODD - 1};

static struct bytes drawn_key(size_t slot)
{
    return drawn(slot, once_in(16) ? draw_length(64, 66000) : between(0, 66));
}

/* Mostly an identity that can be edited so, at times one that no table may have. */
static struct bytes drawn_name(size_t slot, struct bytes table, enum edit kind)
{
    size_t n = once_in(4) ? between(126, 130) : below(40);
    if (kind != ADD || once_in(4))
        return drawn_identity(slot, table);
    return once_in(3) ? drawn_text(slot, n) : plain_text(slot, n);
}

/* The text's length, or that of some lines at its front, so that what stands behind the table are lines too. */
static size_t drawn_table_length(struct bytes text)
{
    size_t n = once_in(5) ? below(text.n + 1) : text.n;
    while (n < text.n && n > 0 && text.at[n - 1] != '\n')
        n--;
    return n;
}

/* A length that the table does not have, mostly past the memory. */
static size_t another_length(const struct memory *m)
{
    switch (below(6)) {
    case 0: return m->n + 1;
    case 1: return m->n + below(70000);
    case 2: return SIZE_MAX - below(3);
    case 3: return between(65535, 65538);
    case 4: return m->length - 1; /* without the last line's end */
    default: return below(m->n + 1);
    }
}

/* How many numbers more than the table's own there is room for: mostly one at least, so that a line can be added. */
static size_t drawn_more(void)
{
    return once_in(6) ? 0 : once_in(2) ? 1 : below(20);
}

/* An edit of the text's first bytes, in memory that is mostly long enough before and after it, often just so; mostly with their own list. */
static void edit_text(struct bytes text, size_t length, enum edit kind, struct bytes identity, struct bytes key)
{
    static struct memory m;
    static struct edited edited;
    struct starts list = starts_in((struct bytes){text.at, length}, 1 + drawn_more());
    model_edit(text, length, &list, kind, identity, key, &edited);
    size_t after = edited.table.said > 0 ? (size_t)edited.table.said : 0, needed = after > length ? after : length;
    list.n -= 1;
    if (once_in(10))
        damage_list(&list, length);
    memory_set(&m, text, once_in(4) ? length : once_in(4) ? text.n + needed : drawn_room((int32_t)needed), &list);
    m.length = length;
    if (once_in(10))
        m.length = another_length(&m);
    memory_edit(&m, kind, identity, key);
}

/* 255 or 256 lines, mostly so long that the added line, or the longer key of the odd one, takes the table to 65,535 to 65,538 bytes. */
static void edits_at_the_limits(void)
{
    size_t lines = between(255, 256), old = between(1, 64), odd = once_in(3) ? 0 : once_in(2) ? lines - 1 : below(lines);
    struct bytes table = full_table(6, lines, once_in(3) ? lines * between(10, 60) : between(65500, 65538), odd, old);
    size_t gap = table.n < 65536 ? 65536 - table.n : 0, line = gap < 9 ? 8 : gap > 255 ? 258 : gap + below(4) - 1, key = key_in_line(line);
    struct bytes listed = once_in(3) ? drawn_identity(0, table) : odd_name;
    edit_text(table, table.n, ADD, once_in(3) ? listed : plain_text(1, line - 2 * key - 2), drawn(2, key));
    key = old + gap / 2 + below(2);
    edit_text(table, table.n, REPLACE, listed, drawn(2, key <= 64 ? key : between(1, 64)));
    edit_text(table, table.n, RETIRE, listed, drawn(2, 0));
}

/* One edit of the table in memory, after which the identity has the given key, or none, and another one has what it had. */
static void edit_and_look(struct memory *m, enum edit kind, struct bytes identity, struct bytes key)
{
    static struct answer named, others;
    struct keys keys = {{m->bytes, m->length}, m->list};
    struct bytes other = drawn_identity(3, keys.text);
    bool apart = other.n != identity.n || memcmp(other.at, identity.at, other.n) != 0;
    model_lookup(&keys, identity, &named);
    model_lookup(&keys, other, &others);
    expect_lookup(&keys, other, &others);
    int32_t result = memory_edit(m, kind, identity, key);
    keys = (struct keys){{m->bytes, m->length}, m->list};
    if (result >= 0 && kind == RETIRE) {
        named.said = TN_ALERT_RESULT(115);
    } else if (result >= 0) {
        named.said = (int32_t)key.n;
        memcpy(named.bytes, key.at, key.n);
    }
    expect_lookup(&keys, identity, &named);
    if (apart)
        expect_lookup(&keys, other, &others);
}

/* Edits of one memory, each of the table and the list that the one before has left; an identity is often edited more than once. */
static void series_of_edits(struct bytes text)
{
    static struct memory m;
    struct bytes identity = drawn_name(0, text, ADD);
    struct starts list = starts_in(text, below(12));
    memory_set(&m, text, text.n + below(once_in(4) ? 60 : 2000), &list);
    for (size_t i = between(3, 12); i > 0; i--) {
        enum edit kind = (enum edit)below(3);
        if (once_in(2))
            identity = drawn_name(0, (struct bytes){m.bytes, m.length}, kind);
        edit_and_look(&m, kind, identity, drawn_key(1));
    }
}

void edits_round(void)
{
    struct bytes text = drawn_table(6);
    for (enum edit kind = ADD; kind <= RETIRE; kind++)
        edit_text(text, drawn_table_length(text), kind, drawn_name(0, text, kind), drawn_key(1));
    if (once_in(6))
        series_of_edits(drawn_table(6));
    if (once_in(60))
        edits_at_the_limits();
    if (once_in(1000))
        series_of_edits(full_table(6, between(253, 255), between(64000, 65536), 0, 20));
}

/* ---- sweeps */

/* Texts of one to four bytes, each of the bytes at an edge of some row of the grammar. */
void every_character(void)
{
    static const uint8_t edges[] = {0x00, 0x7f, 0x80, 0x8f, 0x90, 0x9f, 0xa0, 0xbf, 0xc0, 0xc1, 0xc2, 0xdf,
                                    0xe0, 0xe1, 0xec, 0xed, 0xee, 0xef, 0xf0, 0xf1, 0xf3, 0xf4, 0xf5, 0xff};
    const unsigned count = sizeof edges;
    uint8_t text[4];
    for (unsigned i = 0; i < count * count * count * count; i++) {
        for (unsigned k = 0, rest = i; k < 4; k++, rest /= count)
            text[k] = edges[rest % count];
        compare_utf8((struct bytes){text, 4});
        if (i < count * count * count)
            compare_utf8((struct bytes){text, 3});
        if (i < count * count)
            compare_utf8((struct bytes){text, 2});
        if (i < count)
            compare_utf8((struct bytes){text, 1});
    }
}

/* Tables that are not well formed, of which it matters which line decides: the first that matches, whatever its key is. */
void every_odd_table(void)
{
    static const char *const tables[] = {"a:0g\na:00\n", "a:\na:00\n", "a:00\na:01\n", "b:00\na:0\na:00", "\n\na:00", "a\na:00\n", "a::00\na:00\n"};
    static const char *const names[] = {"a", "b", "", "a:", "ab"};
    for (size_t i = 0; i < sizeof tables / sizeof tables[0]; i++)
        for (size_t k = 0; k < sizeof names / sizeof names[0]; k++) {
            struct keys keys = keys_of((struct bytes){(const uint8_t *)tables[i], strlen(tables[i])});
            compare_table(&keys, (struct bytes){(const uint8_t *)names[k], strlen(names[k])});
        }
}

/* Each kind, of the text's first bytes and this list, in memory of n bytes. */
static void every_kind(struct bytes text, size_t n, size_t length, const struct starts *list, struct bytes identity, struct bytes key)
{
    static struct memory m;
    for (enum edit kind = ADD; kind <= RETIRE; kind++) {
        memory_set(&m, text, n, list);
        m.length = length;
        memory_edit(&m, kind, identity, key);
    }
}

/* The same with the list of these bytes. */
static void every_edit_of(struct bytes text, size_t n, size_t length, struct bytes identity, struct bytes key)
{
    struct starts list = starts_in((struct bytes){text.at, length < text.n ? length : text.n}, 1);
    every_kind(text, n, length, &list, identity, key);
}

static const uint8_t lines[] = "a:00\nbc:AbCd\nd:ffff00\n", names[] = "abcde";
static const struct bytes text_of_lines = {lines, sizeof lines - 1};

/* Of three lines: each length of the memory and of the table in it, each identity of one or two bytes. Of two: each length of a key for each. */
void every_edit(void)
{
    struct bytes text = text_of_lines;
    for (size_t n = 0; n < text.n + 12; n++)
        for (size_t length = 0; length < n + 4; length++)
            for (size_t i = 0; i < 5; i++)
                every_edit_of(text, n, length, (struct bytes){names + i, i == 1 ? 2 : 1}, drawn(0, 2));
    for (unsigned i = 0; i < 65536; i++) {
        uint8_t name[] = {(uint8_t)i, (uint8_t)(i >> 8)};
        every_edit_of(text, text.n + 10, text.n, (struct bytes){name, i < 256 ? 1 : 2}, drawn(0, 2));
    }
    for (size_t old = 1; old <= 64; old++)
        for (size_t key = 0; key <= 66; key++) {
            struct bytes two = full_table(6, 2, 60 + 2 * old, key % 2, old);
            every_edit_of(two, two.n + 2 * key + 3, two.n, odd_name, drawn(0, key));
        }
}

/* Whatever is given this list beside the three lines: lookups and edits of each identity, and of one that is a part of another's. */
static void every_use_of(const struct starts *list)
{
    struct keys keys = {text_of_lines, *list};
    for (size_t i = 0; i < 5; i++) {
        struct bytes name = {names + i, i == 1 ? 2 : 1};
        compare_lookup(&keys, name);
        every_kind(keys.text, keys.text.n + 10, keys.text.n, list, name, drawn(0, 2));
    }
    compare_lookup(&keys, (struct bytes){lines, 7}); /* as far as the second line's colon */
    every_kind(keys.text, keys.text.n, keys.text.n, list, (struct bytes){names + 4, 1}, drawn(0, 2)); /* no memory for the line */
    every_kind(keys.text, keys.text.n, keys.text.n - 1, list, (struct bytes){names, 1}, drawn(0, 0)); /* R2, and a key that is R5 */
    every_kind(keys.text, keys.text.n, keys.text.n, list, (struct bytes){names, 1}, drawn(0, 0));
}

/* Beside three lines: lists of each length and count around their own, of these each number at every place, and every room for a list that is made. */
void every_list(void)
{
    struct bytes text = text_of_lines;
    for (size_t room = 0; room < 6; room++)
        for (size_t count = 0; count < 7; count++) {
            struct starts list = starts_in(text, 3);
            list.n = room;
            list.count = count;
            every_use_of(&list);
        }
    for (size_t k = 0; k < 3; k++)
        for (size_t at = 0; at < text.n + 3; at++) {
            struct starts list = starts_in(text, 1);
            list.at[k] = (uint32_t)at;
            every_use_of(&list);
            list.at[k] = (uint32_t)(UINT32_MAX - at);
            every_use_of(&list);
        }
    for (size_t n = 0; n <= text.n; n++)
        for (size_t room = 0; room < 5; room++)
            compare_list((struct bytes){text.at, n}, room);
}
