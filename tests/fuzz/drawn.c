/* Arguments drawn from the seed: mostly such as are allowed, often at the edge of what is, now and then damaged. */
#include "compare.h"

#include <stdio.h>
#include <string.h>

#define SLOT 70000u

static uint8_t slots[RECORD + 1][SLOT];

struct bytes drawn(size_t slot, size_t n)
{
    draw_bytes(slots[slot], n);
    return (struct bytes){slots[slot], n};
}

struct bytes copied(size_t slot, struct bytes b)
{
    memmove(slots[slot], b.at, b.n);
    return (struct bytes){slots[slot], b.n};
}

size_t drawn_room(int32_t said)
{
    size_t needed = said > 0 ? (size_t)said : 0, kind = below(8);
    if (kind == 0 && needed > 0)
        return needed - 1;
    return kind == 1 ? below(needed + 1) : kind < 5 ? needed : needed + below(40);
}

/* ---- damage */

static size_t changed(uint8_t *at, size_t n)
{
    size_t i = n > 0 ? below(n) : 0, tail = n - i;
    switch (n == 0 ? 5 : below(6)) {
    case 0: at[i] ^= (uint8_t)(1u << below(8)); return n;
    case 1: at[i] = (uint8_t)draw(); return n;
    case 2: return i;                                       /* cut off */
    case 3: memmove(at + i, at + i + 1, tail - 1); return n - 1;
    case 4: at[i] = (uint8_t)(at[i] + (once_in(2) ? 1 : 255)); return n;
    default: memmove(at + i + 1, at + i, tail); at[i] = (uint8_t)draw(); return n + 1;
    }
}

struct bytes damaged(struct bytes b)
{
    size_t n = b.n;
    memcpy(slots[DAMAGED], b.at, n);
    for (size_t times = between(1, 3); times > 0; times--)
        n = changed(slots[DAMAGED], n);
    if (n >= 4 && once_in(2)) { /* a header that is right again */
        size_t body = n - 4;
        slots[DAMAGED][1] = (uint8_t)(body >> 16);
        slots[DAMAGED][2] = (uint8_t)(body >> 8);
        slots[DAMAGED][3] = (uint8_t)body;
    }
    return (struct bytes){slots[DAMAGED], n};
}

void damage_connection(uint8_t *c, const uint8_t *other, size_t n)
{
    size_t from = below(n), part = between(1, n - from);
    switch (below(5)) {
    case 0: draw_bytes(c + from, part); break;
    case 1: memcpy(c + from, other + from, part); break;
    case 2: memset(c + from, once_in(2) ? 0xff : 0, part); break;
    case 3: draw_bytes(c, n); break;
    default:
        for (size_t i = between(1, 8); i > 0; i--)
            c[below(n)] ^= (uint8_t)(1u << below(8));
    }
}

/* ---- text */

/* One character's bytes, of the length that its number asks for. */
static size_t put_character(uint8_t *at)
{
    static const uint32_t most[] = {0x7f, 0x7ff, 0xffff, 0x10ffff};
    size_t more = below(4);
    uint32_t c = (uint32_t)between(0x20, most[more]);
    if (c >= 0xd800 && c <= 0xdfff)
        c -= 0x800;
    size_t n = c < 0x80 ? 1 : c < 0x800 ? 2 : c < 0x10000 ? 3 : 4;
    for (size_t i = n; i-- > 1; c >>= 6)
        at[i] = (uint8_t)(0x80 | (c & 0x3f));
    at[0] = (uint8_t)(n == 1 ? c : (0xf00u >> n) | c);
    return n;
}

struct bytes clean_text(size_t slot, size_t n)
{
    for (size_t done = 0; done < n;)
        if (n - done < 4)
            slots[slot][done++] = (uint8_t)between('a', 'z');
        else
            done += put_character(slots[slot] + done);
    return (struct bytes){slots[slot], n};
}

struct bytes drawn_text(size_t slot, size_t n)
{
    static const char *const edges[] = {"\xc0\x80",     "\xed\xa0\x80",     "\xed\x9f\xbf", "\xf4\x90\x80\x80", "\xf4\x8f\xbf\xbf",
                                        "\xe0\x9f\xbf", "\xf0\x8f\xbf\xbf", "\xc1\xbf",     "\xf5\x80\x80\x80", "\xef\xbf\xbf"};
    struct bytes b = clean_text(slot, n);
    if (n >= 8 && once_in(4)) {
        const char *edge = edges[below(10)];
        memset(slots[slot] + n - 4, 'x', 4);
        memcpy(slots[slot] + n - 4, edge, strlen(edge));
    } else if (n > 0 && once_in(6)) {
        slots[slot][below(n)] ^= (uint8_t)(1u << below(8));
    }
    return b;
}

static void put_letters(uint8_t *at, size_t n)
{
    for (size_t i = 0; i < n; i++)
        at[i] = (uint8_t)between('a', 'z');
}

struct bytes plain_text(size_t slot, size_t n)
{
    put_letters(slots[slot], n);
    return (struct bytes){slots[slot], n};
}

/* ---- extensions and hellos */

static size_t put_extension(uint8_t *at, size_t type, size_t n)
{
    at[0] = (uint8_t)(type >> 8);
    at[1] = (uint8_t)type;
    at[2] = (uint8_t)(n >> 8);
    at[3] = (uint8_t)n;
    draw_bytes(at + 4, n);
    if (type == 35 && n >= 2 && once_in(2)) { /* a length of its own in front of the ticket, as RFC 4507 had it: data like any other */
        at[4] = (uint8_t)((n - 2) >> 8);
        at[5] = (uint8_t)(n - 2);
    }
    return n + 4;
}

struct bytes drawn_block(size_t slot, size_t most)
{
    uint8_t *block = slots[slot];
    size_t n = 0, first = below(65536), longest = once_in(8) ? most : 40;
    bool many = once_in(16), clash = once_in(6);
    for (size_t i = 0, count = many ? 5000 : below(12); i < count; i++) {
        size_t type = clash ? below(40) : (first + i * 7) % 65536, size = many ? 0 : below(longest + 1);
        if (once_in(many ? 5000 : 10)) /* seldom twice, which is refused */
            type = 35;
        if (n + 4 + size > most)
            break;
        n += put_extension(block + n, type, size);
    }
    struct bytes b = {block, n};
    return once_in(8) ? copied(slot, damaged(b)) : b;
}

static struct bytes drawn_suites(size_t slot, size_t n)
{
    static const uint8_t ours[] = {0xae, 0x8c, 0xb0};
    struct bytes b = drawn(slot, n);
    for (size_t i = 0; i < 3; i++)
        if (b.n >= 2 && !once_in(3)) {
            size_t at = below(b.n / 2) * 2;
            slots[slot][at] = 0;
            slots[slot][at + 1] = ours[i];
        }
    return b;
}

/* The whole message of these fields. */
static struct bytes composed(const struct hello *h, bool of_client)
{
    static struct answer message;
    if (!(of_client ? compose_client_hello(h, &message) : compose_server_hello(h, &message)))
        return drawn(MESSAGE, 40);
    return copied(MESSAGE, (struct bytes){message.bytes, (size_t)message.said});
}

struct bytes drawn_hello(struct hello *h, bool of_client)
{
    static const uint32_t versions[] = {0x0303, 0x0303, 0x0303, 0x0304, 0x0302, 0x0000, 0xffff, 0x10303};
    *h = (struct hello){.version = versions[below(8)], .random = drawn(0, once_in(20) ? draw_length(32, 40) : 32)};
    h->session_id = drawn(1, once_in(2) ? 0 : once_in(10) ? draw_length(32, 300) : below(33));
    size_t suites = draw_length(once_in(4) ? 16300 : 2, 65600);
    h->suites = drawn_suites(2, once_in(10) ? suites : suites / 2 * 2);
    h->methods = drawn(3, once_in(8) ? draw_length(255, 300) : between(1, 4));
    if (h->methods.n > 0 && !once_in(8))
        slots[3][below(h->methods.n)] = 0;
    h->suite = (uint32_t)(once_in(10) ? draw() : below(65536));
    h->compression = (uint8_t)draw();
    h->present = once_in(2);
    h->block = drawn_block(4, once_in(6) ? 66000 : between(16100, 16340)); /* full, it has room in a message or just not */
    return composed(h, of_client);
}

struct bytes drawn_login(void)
{
    struct hello h = {.version = once_in(12) ? (uint32_t)below(65536) : 0x0303, .random = drawn(0, 32)};
    h.session_id = drawn(1, once_in(2) ? 0 : below(33));
    h.suites = drawn_suites(2, 2 * between(1, once_in(12) ? 8000 : 12));
    h.methods = drawn(3, between(1, 3));
    if (!once_in(12))
        slots[3][below(h.methods.n)] = 0;
    h.present = once_in(3);
    h.block = drawn_block(4, once_in(6) ? 16280 : 300);
    return composed(&h, true);
}

struct bytes drawn_server_hello(void)
{
    static const uint32_t ours[] = {0x00AE, 0x008C, 0x00B0}, others[] = {0x00AF, 0x0000, 0xAE00, 0x01AE};
    struct hello h = {.version = once_in(8) ? (uint32_t)(once_in(2) ? between(0x0300, 0x0304) : below(65536)) : 0x0303, .random = drawn(0, 32)};
    h.session_id = drawn(1, once_in(2) ? 0 : below(33));
    h.suite = once_in(8) ? others[below(4)] : ours[below(3)];
    h.compression = (uint8_t)(once_in(10) ? draw() : 0);
    h.present = once_in(3);
    h.block = once_in(3) ? drawn_block(4, once_in(6) ? 16340 : 300) : drawn(4, 0);
    return composed(&h, false);
}

struct settings drawn_settings(void)
{
    struct settings s;
    s.hint = once_in(3) ? drawn(1, 0) : once_in(10) ? drawn_text(1, draw_length(128, 300)) : drawn_text(1, below(129));
    s.random = drawn(0, once_in(20) ? draw_length(32, 66000) : 32);
    s.stand_in = drawn(2, once_in(20) ? draw_length(32, 66000) : 32);
    s.rule = (uint8_t)(once_in(20) ? draw() : below(3));
    return s;
}

/* ---- tables */

/* The end of a line behind its identity: a key of so many bytes, in digits of either case. */
static size_t put_key(size_t slot, size_t n, size_t key)
{
    static const char digits[] = "0123456789abcdefABCDEF";
    slots[slot][n++] = ':';
    for (size_t i = 0; i < 2 * key; i++)
        slots[slot][n++] = (uint8_t)digits[below(22)];
    slots[slot][n++] = '\n';
    return n;
}

/* One line at the end of a table: an identity of so many bytes, a number in front where there is one and it has room, and a key of so many. */
static size_t put_line(size_t slot, size_t n, int number, size_t identity, size_t key)
{
    size_t front = number < 0 || identity < 4 ? 0 : (size_t)sprintf((char *)slots[slot] + n, "%d.", number);
    struct bytes text = once_in(80) ? drawn_text(7, identity - front) : clean_text(7, identity - front);
    n += front;
    for (size_t i = 0; i < text.n; i++) {
        bool plain = text.at[i] >= 0x20 && text.at[i] != 0x7f && text.at[i] != ':';
        slots[slot][n++] = plain || once_in(80) ? text.at[i] : (uint8_t)'_';
    }
    return put_key(slot, n, key);
}

/* The same of letters, never damaged: the number keeps the identity, of 4 bytes or more, apart from the others. */
static size_t put_plain_line(size_t slot, size_t n, size_t number, size_t identity, size_t key)
{
    size_t front = (size_t)sprintf((char *)slots[slot] + n, "%zu.", number);
    put_letters(slots[slot] + n + front, identity - front);
    return put_key(slot, n + identity, key);
}

static struct bytes table_of(size_t slot, size_t lines, size_t identity, size_t key)
{
    size_t n = 0;
    for (size_t i = 0; i < lines && n < 65400; i++)
        n = put_line(slot, n, once_in(2) || lines > 12 ? (int)i : -1, between(identity > 30 ? 5 : 1, identity), between(1, key));
    return (struct bytes){slots[slot], n};
}

/* 256 lines and 65,534 to 65,538 bytes: the longest lines that fill the table just so. */
static struct bytes fullest_table(size_t slot)
{
    size_t n = 0;
    for (size_t i = 0; i < 255; i++)
        n = put_plain_line(slot, n, i, 128, 63);
    n = put_plain_line(slot, n, 255, between(126, 128), between(63, 64));
    return (struct bytes){slots[slot], n};
}

size_t key_in_line(size_t size)
{
    size_t most = (size - 6) / 2;
    return between(size > 130 ? (size - 129) / 2 : 1, most < 64 ? most : 64);
}

struct bytes full_table(size_t slot, size_t lines, size_t size, size_t odd, size_t odd_key)
{
    size_t n = 0, kept = strlen(ODD) + 2 * odd_key + 2; /* for the odd line, as long as it is to come */
    for (size_t i = 0; i < lines; i++) {
        if (i == odd) {
            memcpy(slots[slot] + n, ODD, strlen(ODD));
            n = put_key(slot, n + strlen(ODD), odd_key);
            kept = 0;
            continue;
        }
        size_t line = (size - n - kept) / (lines - i - (i < odd ? 1 : 0)), longest = line < 258 ? line : 258, key = key_in_line(longest);
        n = put_plain_line(slot, n, i, longest - 2 * key - 2, key);
    }
    return (struct bytes){slots[slot], n};
}

/* The first line, or what there is of it, a second time at the end. */
static struct bytes repeated(size_t slot, struct bytes table)
{
    size_t n = 0;
    while (n < table.n && table.at[n] != '\n')
        n++;
    n = n < table.n ? n + 1 : n;
    memcpy(slots[slot] + table.n, slots[slot], n);
    return (struct bytes){slots[slot], table.n + n};
}

struct bytes drawn_table(size_t slot)
{
    size_t kind = below(60);
    struct bytes t = kind == 0   ? table_of(slot, between(254, 258), 60, 30)
                     : kind == 1 ? fullest_table(slot)
                     : kind < 5  ? table_of(slot, below(10), 130, 65)
                                 : table_of(slot, below(8), 12, 8);
    if (once_in(20))
        t = repeated(slot, t);
    return once_in(8) ? copied(slot, damaged(t)) : t;
}

struct bytes drawn_identity(size_t slot, struct bytes table)
{
    size_t at = table.n > 0 ? below(table.n) : 0, n = 0;
    if (table.n == 0 || once_in(8))
        return drawn_text(slot, draw_length(128, 16000));
    while (at > 0 && table.at[at - 1] != '\n')
        at--;
    while (at + n < table.n && table.at[at + n] != ':' && table.at[at + n] != '\n')
        n++;
    struct bytes b = copied(slot, (struct bytes){table.at + at, n});
    if (once_in(10) && n > 0)
        b.n--;
    else if (once_in(10))
        slots[slot][b.n++] = ':';
    else if (once_in(20) && n > 0)
        b = (struct bytes){b.at + 1, b.n - 1}; /* what stands one place behind a line's start */
    return b;
}

/* ---- lists of line starts */

struct starts starts_in(struct bytes text, size_t more)
{
    struct starts l = {.n = 0};
    for (size_t i = 0; i < text.n && l.count < STARTS_LIMIT; i++)
        if (i == 0 || text.at[i - 1] == '\n')
            l.at[l.count++] = (uint32_t)i;
    l.n = l.count + more < STARTS_LIMIT ? l.count + more : STARTS_LIMIT;
    for (size_t i = l.count; i < l.n; i++)
        l.at[i] = (uint32_t)(i == l.count ? text.n : draw()); /* what would be the next line's, and anything */
    return l;
}

void damage_list(struct starts *l, size_t size)
{
    size_t i = l->count > 0 ? below(l->count) : 0;
    switch (l->count == 0 || l->count > l->n ? between(6, 9) : below(10)) {
    case 0: l->at[i] += once_in(2) ? 1 : UINT32_MAX; break;
    case 1: l->at[i] ^= 1u << below(32); break;
    case 2: l->at[i] = (uint32_t)(once_in(2) ? below(size + 3) : draw()); break;
    case 3: l->at[i] = l->at[below(l->count)]; break; /* another line's */
    case 4: l->count = once_in(2) ? l->count - 1 : i; break; /* the first lines alone */
    case 5: /* a line left out */
        memmove(l->at + i, l->at + i + 1, (l->count - i - 1) * sizeof l->at[0]);
        l->count--;
        break;
    case 6: l->count++; break;
    case 7: l->n = below(l->n + 1); break;
    case 8: l->count = once_in(2) ? SIZE_MAX - below(3) : l->n + between(1, 70000); break;
    default:
        for (size_t k = 0; k < l->n; k++)
            l->at[k] = (uint32_t)(once_in(8) ? draw() : below(size + 3));
    }
}

struct keys keys_of(struct bytes text)
{
    return (struct keys){text, starts_in(text, once_in(3) ? below(20) : 0)};
}

struct keys drawn_keys(size_t slot)
{
    struct keys k = keys_of(drawn_table(slot));
    if (once_in(10))
        damage_list(&k.list, k.text.n);
    return k;
}

const struct keys *keys_of_call(const struct keys *own)
{
    static struct keys k;
    k = once_in(20) ? drawn_keys(5) : *own;
    if (once_in(10))
        damage_list(&k.list, k.text.n);
    return &k;
}
