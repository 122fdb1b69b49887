/*
 * Edits of a full key table: 256 lines of 256 bytes, with identities that differ only at their end; to add a line, 255 of them. The first line is
 * retired or gets a key of another length, so that all bytes behind it move; the last one is retired, so that all lines are searched. Each edit is
 * compared with the least that it has to do, tn_table_test of the same table and one memmove of its bytes, and both with themselves on a quarter of
 * the lines: an edit may grow no faster than the table.
 */
#include "edits.h"

#include <stdio.h>
#include <string.h>

#include "cases.h"
#include "measure.h"

enum { SAMPLES = 5, IDENTITY = 126, LONG = TN_PSK_LIMIT, SHORT = LONG - 1, MOVED = 2, NAME = 64 };
enum { QUARTER, QUARTER_LEAST, WHOLE, LEAST, KINDS }; /* the subjects of each edit */

#define AIM 1.3

static uint8_t memory[TN_TABLE_LIMIT + MOVED], identity[IDENTITY + 1];
static uint32_t starts[TN_TABLE_LINES];
static size_t count;
static const uint8_t key[TN_PSK_LIMIT] = {0xAB, 0xCD};
static const struct edit *current;

static int32_t call_add(void)
{
    return tn_table_add(memory, TN_TABLE_LIMIT, current->size, starts, TN_TABLE_LINES, &count, identity, IDENTITY, key, current->key);
}

static int32_t call_replace(void)
{
    return tn_table_replace(memory, TN_TABLE_LIMIT, current->size, starts, TN_TABLE_LINES, &count, identity, IDENTITY, key, current->key);
}

static int32_t call_retire(void)
{
    return tn_table_retire(memory, TN_TABLE_LIMIT, current->size, starts, TN_TABLE_LINES, &count, identity, IDENTITY);
}

int32_t edit_test(void)
{
    return tn_table_test(memory, current->size);
}

int32_t edit_list(void)
{
    return tn_table_list(memory, current->size, starts, TN_TABLE_LINES);
}

int32_t edit_look_up(void)
{
    uint8_t found[TN_PSK_LIMIT];
    return tn_table_lookup(memory, current->size, starts, TN_TABLE_LINES, count, identity, IDENTITY, found, sizeof found);
}

struct edit edits[EDITS] = {
    {.name = "add", .call = call_add, .lines = 255, .first_key = LONG, .line = 255, .key = LONG},
    {.name = "replace by a longer key", .call = call_replace, .lines = 256, .first_key = SHORT, .key = LONG},
    {.name = "replace by a shorter key", .call = call_replace, .lines = 256, .first_key = LONG, .key = SHORT},
    {.name = "retire", .call = call_retire, .lines = 256, .first_key = LONG},
    {.name = "retire the last line", .call = call_retire, .lines = 256, .first_key = LONG, .line = 255},
};

static struct edit quarters[EDITS] = {
    {.name = "add", .call = call_add, .lines = 63, .first_key = LONG, .line = 63, .key = LONG},
    {.name = "replace by a longer key", .call = call_replace, .lines = 64, .first_key = SHORT, .key = LONG},
    {.name = "replace by a shorter key", .call = call_replace, .lines = 64, .first_key = LONG, .key = SHORT},
    {.name = "retire", .call = call_retire, .lines = 64, .first_key = LONG},
    {.name = "retire the last line", .call = call_retire, .lines = 64, .first_key = LONG, .line = 63},
};

/* The identity of a line: digits behind zeros, and a byte behind it that is not part of it. */
static void identity_of(size_t line, uint8_t *out)
{
    snprintf((char *)out, IDENTITY + 1, "%0*zu", IDENTITY, line);
}

static void fill(struct edit *e)
{
    e->size = 0;
    for (size_t line = 0; line < e->lines; line++) {
        size_t digits = 2 * (line == 0 ? e->first_key : LONG);
        e->starts[line] = (uint32_t)e->size;
        identity_of(line, e->text + e->size);
        e->size += IDENTITY;
        e->text[e->size++] = ':';
        memset(e->text + e->size, 'a', digits);
        e->size += digits;
        e->text[e->size++] = '\n';
    }
}

void edits_prepare(void)
{
    for (size_t i = 0; i < EDITS; i++) {
        fill(&edits[i]);
        fill(&quarters[i]);
    }
}

void edit_ready(const struct edit *e)
{
    current = e;
    identity_of(e->line, identity);
    memcpy(memory, e->text, e->size);
    memcpy(starts, e->starts, sizeof starts);
    count = e->lines;
}

static double sample_edit(void *state)
{
    edit_ready(state);
    double from = now();
    int32_t result = current->call();
    double taken = now() - from;
    must(result > 0 && (size_t)result != current->size, "an edit is refused");
    return taken;
}

static double sample_least(void *state)
{
    edit_ready(state);
    double from = now();
    int32_t result = edit_test();
    memmove(memory + MOVED, memory, current->size);
    double taken = now() - from;
    must(result == 0, "the table is not well formed");
    return taken;
}

/* The edit, and the least that it has to do, as the first two of these subjects. */
static void set_subjects(struct subject *s, char names[][NAME], struct edit *e)
{
    snprintf(names[0], NAME, "%s, %zu lines", e->name, e->lines);
    snprintf(names[1], NAME, "  test of this table and a memmove");
    s[0] = (struct subject){.name = names[0], .sample = sample_edit, .state = e};
    s[1] = (struct subject){.name = names[1], .sample = sample_least, .state = e};
}

static void print_subjects(const struct subject s[KINDS], const struct edit *quarter, const struct edit *whole)
{
    for (size_t i = 0; i < KINDS; i++) {
        print_time(&s[i], 1000, "us");
        if (i == QUARTER_LEAST || i == LEAST)
            print_ratio("edit / this", &s[i - 1], &s[i]);
        if (i == LEAST)
            print_aim(&s[WHOLE], &s[LEAST], AIM);
        if (i >= WHOLE)
            print_growth(&s[i], &s[i - WHOLE], (double)whole->size, (double)quarter->size);
        printf("\n");
    }
}

void bench_edits(void)
{
    static struct subject subjects[EDITS][KINDS];
    static char names[EDITS][KINDS][NAME];
    edits_prepare();
    for (size_t i = 0; i < EDITS; i++) {
        set_subjects(&subjects[i][QUARTER], &names[i][QUARTER], &quarters[i]);
        set_subjects(&subjects[i][WHOLE], &names[i][WHOLE], &edits[i]);
    }
    heading("Edits of a key table, microseconds");
    measure(subjects[0], EDITS * KINDS, SAMPLES);
    for (size_t i = 0; i < EDITS; i++)
        print_subjects(subjects[i], &quarters[i], &edits[i]);
}
