/*
 * gates: edits the key table's file for whoever manages the herd, so that nobody needs a text editor for it. Every edit is the library's
 * (tn_table_add, tn_table_replace, tn_table_retire), and table_file.c replaces the file as a whole. Here are the command line, the key, and the one
 * sentence that is said.
 */
#include <ctype.h>
#include <errno.h>
#include <signal.h>
#include <stdio.h>
#include <string.h>
#include <unistd.h>

#include "entropy.h"
#include "streams.h"
#include "table_file.h"
#include "table_text.h"
#include "wipe.h"

const char program_name[] = "gates";

enum { DONE = 0, FAILED = 1, MISUSED = 2, REFUSED = 10 }; /* exit statuses; REFUSED + n is the library's refusal Rn */
enum { DRAWN_SIZE = 32 };                                 /* of a key that is drawn */

static const char help[] =
    "usage: gates TABLE list\n"
    "       gates TABLE check\n"
    "       gates TABLE add NAME [KEY]\n"
    "       gates TABLE replace NAME [KEY]\n"
    "       gates TABLE retire NAME\n"
    "\n"
    "Edits the file TABLE of the gates: lines 'identity:key', key in hex.\n"
    "\n"
    "  list           the gates' names, one a line, without their keys\n"
    "  check          whether the table is well formed, and how many gates it has\n"
    "  add            a new gate; makes the file where there is none\n"
    "  replace        another key for a gate\n"
    "  retire         takes a gate out\n"
    "  --version      its version\n"
    "  -h, --help     this text\n"
    "\n"
    "KEY has 2 to 128 hex digits. Without it a key of 32 bytes is drawn and printed, once. A key on\n"
    "the command line can be seen by other users of this machine: with '-' in its place it is read\n"
    "from standard input, one line.\n"
    "\n"
    "The file is replaced as a whole or stays as it was, and two edits at once wait for each other.\n"
    "The gateway reads the table again on SIGHUP.\n"
    "\n"
    "Exit status; a sentence on standard error says more:\n"
    "  0   done\n"
    "  1   the file can't be read, written or locked, or the key can't be printed\n"
    "  2   the command line is wrong\n"
    "  12  the table is not well formed\n"
    "  15  no table may have such a name, or such a key\n"
    "  16  add: the gate is listed already\n"
    "  17  replace, retire: the gate is not listed\n"
    "  18  the table is full: 256 lines or 65,536 bytes\n";

enum command { LIST, CHECK, ADD, REPLACE, RETIRE };

static const struct {
    const char *word;
    int least, most;  /* words behind it */
    const char *done; /* what is said of the gate in the table */
} commands[] = {
    [LIST] = {"list", 0, 0, ""},
    [CHECK] = {"check", 0, 0, ""},
    [ADD] = {"add", 1, 2, "is added to"},
    [REPLACE] = {"replace", 1, 2, "has another key in"},
    [RETIRE] = {"retire", 1, 1, "is taken out of"},
};

struct request {
    enum command command;
    const char *table, *name;
    char *key; /* as it was given; NULL: to be drawn */
};

struct key {
    uint8_t bytes[TN_PSK_LIMIT];
    size_t n;
    bool drawn;
};

/* ---- the command line */

static const char where[] = "; --help shows how it is used";

/* Whether help or the version was asked for, which is printed then: where a table's name or a command would stand. */
static bool asked(int count, char **words)
{
    for (int i = 1; i < count && i < 3; i++) {
        bool version = strcmp(words[i], "--version") == 0;
        if (!version && strcmp(words[i], "--help") != 0 && strcmp(words[i], "-h") != 0)
            continue;
        fputs(version ? "gates of turretnail " TN_VERSION "\n" : help, stdout);
        return true;
    }
    return false;
}

/* What the words ask for. A word behind the name is not repeated in a sentence: it may be a key. */
static int understand(struct request *r, int count, char **words)
{
    if (count < 2 || words[1][0] == '\0')
        return say(MISUSED, "which table? Give TABLE and what to do with it%s", where);
    if (words[1][0] == '-')
        return say(MISUSED, "'%s' is not understood%s", words[1], where);
    if (count < 3)
        return say(MISUSED, "what is to be done? Give a command behind '%s'%s", words[1], where);
    size_t which = 0, all = sizeof commands / sizeof commands[0];
    while (which < all && strcmp(words[2], commands[which].word) != 0)
        which++;
    if (which == all)
        return say(MISUSED, "'%s' is no command%s", words[2], where);
    if (count - 3 < commands[which].least)
        return say(MISUSED, "'%s' needs a NAME%s", words[2], where);
    if (count - 3 > commands[which].most)
        return say(MISUSED, "'%s' has too many words behind it, and a NAME with spaces goes in quotes%s", words[2], where);
    *r = (struct request){.command = (enum command)which, .table = words[1], .name = count > 3 ? words[3] : NULL, .key = count > 4 ? words[4] : NULL};
    return DONE;
}

/* ---- the key */

static const char digits[] = "0123456789abcdef";

/* The value of a hex digit of either case, or -1. */
static int value_of(char c)
{
    const char *found = c == '\0' ? NULL : strchr(digits, tolower((unsigned char)c));
    return found ? (int)(found - digits) : -1;
}

/* The key that n characters stand for. */
static int key_of(struct key *key, const char *text, size_t n)
{
    bool good = n > 0 && n % 2 == 0 && n <= 2 * sizeof key->bytes;
    for (key->n = 0; good && key->n < n / 2; key->n++) {
        int high = value_of(text[2 * key->n]), low = value_of(text[2 * key->n + 1]);
        good = high >= 0 && low >= 0;
        key->bytes[key->n] = (uint8_t)(good ? high << 4 | low : 0);
    }
    return good ? DONE : say(REFUSED - TN_R5, "no table may have such a key; nothing was changed, give 1 to 64 bytes as 2 to 128 hex digits");
}

/* The key in a line of standard input, which is read byte by byte so that what follows stays there. */
static int read_key(struct key *key)
{
    char line[2 * TN_PSK_LIMIT + 1]; /* one more, to find out that it is too long */
    ssize_t got = 1;
    size_t n = 0;
    while (n < sizeof line && (got = read(STDIN_FILENO, line + n, 1)) == 1 && line[n] != '\n')
        n++;
    int status = got < 0 ? say(FAILED, "standard input can't be read: %s; nothing was changed, give the key there in one line", strerror(errno))
                         : key_of(key, line, n);
    explicit_bzero(line, sizeof line);
    return status;
}

/* The key that was given, or a drawn one. */
static int take_key(struct key *key, char *given)
{
    if (!given) {
        key->drawn = true;
        key->n = DRAWN_SIZE;
        if (!entropy_fill(key->bytes, key->n))
            return say(FAILED, "the system gives no randomness: %s; nothing was changed, try again", strerror(errno));
        return DONE;
    }
    int status = strcmp(given, "-") == 0 ? read_key(key) : key_of(key, given, strlen(given));
    explicit_bzero(given, strlen(given)); /* where other users can see it */
    return status;
}

/* Prints the key by itself, not through the C library, whose buffer nobody would clear. */
static bool print_key(const struct key *key)
{
    char text[2 * TN_PSK_LIMIT + 1];
    for (size_t i = 0; i < key->n; i++) {
        text[2 * i] = digits[key->bytes[i] >> 4];
        text[2 * i + 1] = digits[key->bytes[i] & 15];
    }
    text[2 * key->n] = '\n';
    bool good = write_whole(STDOUT_FILENO, text, 2 * key->n + 1) && close(STDOUT_FILENO) == 0; /* some disks turn out to be full only then */
    explicit_bzero(text, sizeof text);
    return good;
}

/* ---- looking at the table */

/* Whether a table that is not well formed would be with a line end behind it; there is room for one, where the table is not too long. */
static bool lacks_line_end(struct table_file *f)
{
    f->bytes[f->n] = '\n';
    return tn_table_test(f->bytes, f->n + 1) == 0;
}

/* Says what is wrong with a table that the library has found not to be well formed. */
static int bad_table(struct table_file *f, const char *table)
{
    char why[TABLE_SENTENCE];
    size_t line = table_explain(f->bytes, f->n, why);
    if (line == 0)
        return say(REFUSED - TN_R2, "%s: %s; nothing was changed, shorten it first", table, why);
    if (lacks_line_end(f))
        return say(REFUSED - TN_R2, "%s: %s; nothing was changed, end it with 'echo >> %s'", table, why, table);
    return say(REFUSED - TN_R2, "%s: %s; nothing was changed, mend line %zu first", table, why, line);
}

static void print_names(const struct table_file *f)
{
    for (size_t i = 0; i < f->lines; i++) {
        const uint8_t *line = f->bytes + f->starts[i];
        fwrite(line, 1, (size_t)((const uint8_t *)memchr(line, ':', f->n - f->starts[i]) - line), stdout);
        putchar('\n');
    }
}

static int look(const struct request *r, struct table_file *f)
{
    if (!table_file_read(f, r->table))
        return say(FAILED, "%s: %s; %s", r->table, f->why, f->remedy);
    if (!tn_is_count(table_file_list(f)))
        return bad_table(f, r->table);
    if (r->command == LIST)
        print_names(f);
    else
        printf("well formed, gates: %zu\n", f->lines);
    bool good = !ferror(stdout);
    return fclose(stdout) == 0 && good ? DONE : say(FAILED, "standard output can't be written: %s; mend that and try again", strerror(errno));
}

/* ---- editing it */

/* The library's edit of what was read, and of its list: the new length, or a refusal. */
static int32_t edited(const struct request *r, const struct key *key, struct table_file *f)
{
    const uint8_t *name = (const uint8_t *)r->name;
    size_t n = strlen(r->name);
    int32_t lines = table_file_list(f);
    if (!tn_is_count(lines))
        return lines;
    switch (r->command) {
    case ADD: return tn_table_add(f->bytes, TN_TABLE_LIMIT, f->n, f->starts, TN_TABLE_LINES, &f->lines, name, n, key->bytes, key->n);
    case REPLACE: return tn_table_replace(f->bytes, TN_TABLE_LIMIT, f->n, f->starts, TN_TABLE_LINES, &f->lines, name, n, key->bytes, key->n);
    default: return tn_table_retire(f->bytes, TN_TABLE_LIMIT, f->n, f->starts, TN_TABLE_LINES, &f->lines, name, n);
    }
}

/* Says why the library has refused the edit. Of a name and a key that no table may have it can only be the name: key_of has let the key pass. */
static int refused(const struct request *r, struct table_file *f, int32_t result)
{
    int status = REFUSED - result;
    switch (result) {
    case TN_R2:
        return bad_table(f, r->table);
    case TN_R5:
        return say(status, "no table may have such a name; nothing was changed, give 1 to 128 bytes of UTF-8 without colons and control characters");
    case TN_R6:
        return say(status, "%s: \"%s\" is listed already; nothing was changed, replace gives it another key", r->table, r->name);
    case TN_R7:
        return say(status, "%s: \"%s\" is not listed; nothing was changed, list shows the names", r->table, r->name);
    case TN_R8:
        return say(status, "%s: the table is full, it has at most 256 lines and 65,536 bytes; nothing was changed, retire a gate first", r->table);
    default:
        return say(FAILED, "%s: the library answers %d; nothing was changed, its version is not this program's", r->table, (int)result);
    }
}

/* From here on an interrupt waits: it would leave a file beside the table, or a key in the table that was never printed. */
static void hold_signals(void)
{
    sigset_t held;
    sigemptyset(&held);
    sigaddset(&held, SIGINT);
    sigaddset(&held, SIGTERM);
    sigaddset(&held, SIGHUP);
    sigaddset(&held, SIGQUIT);
    sigprocmask(SIG_BLOCK, &held, NULL);
}

/* What is said of an edit that is done, after its key. */
static int report(const struct request *r, const struct key *key)
{
    if (key->drawn && !print_key(key))
        return say(FAILED, "%s: the key of \"%s\" is in the table, but can't be printed: %s; replace draws another", r->table, r->name,
                   strerror(errno));
    return say(DONE, "\"%s\" %s %s; the gateway reads the table again on SIGHUP", r->name, commands[r->command].done, r->table);
}

static int edit(const struct request *r, const struct key *key, struct table_file *f)
{
    if (!table_file_take(f, r->table, r->command == ADD))
        return say(FAILED, "%s: %s; nothing was changed, %s", r->table, f->why, f->remedy);
    int32_t n = edited(r, key, f);
    if (!tn_is_count(n))
        return refused(r, f, n);
    f->n = (size_t)n;
    hold_signals();
    bool good = table_file_replace(f);
    if (!good && !f->replaced)
        return say(FAILED, "%s: %s; nothing was changed, %s", r->table, f->why, f->remedy);
    if (!good)
        return say(FAILED, "%s: %s; %s", r->table, f->why, key->drawn ? "its key was not printed, replace draws another" : f->remedy);
    table_file_leave(f); /* nobody has to wait until the key is read */
    return report(r, key);
}

/* ---- the program */

/* Its frame is below main's, and so among those that main clears. */
static __attribute__((noinline)) int serve(const struct request *r)
{
    static struct table_file file;
    struct key key = {.n = 0};
    bool looking = r->command == LIST || r->command == CHECK;
    int status = looking || r->command == RETIRE ? DONE : take_key(&key, r->key);
    if (status == DONE) {
        status = looking ? look(r, &file) : edit(r, &key, &file);
        table_file_leave(&file);
    }
    explicit_bzero(&key, sizeof key);
    return status;
}

int main(int count, char **words)
{
    struct request request;
    if (!hold_streams())
        return say(FAILED, "/dev/null can't be opened: %s; mend that and try again", strerror(errno));
    if (asked(count, words))
        return DONE;
    int status = understand(&request, count, words);
    if (status != DONE)
        return status;
    if (!forbid_dumps())
        return say(FAILED, "core dumps can't be forbidden: %s; mend that and try again", strerror(errno));
    signal(SIGPIPE, SIG_IGN); /* what can't be printed or written is told by the call */
    signal(SIGXFSZ, SIG_IGN);
    status = serve(&request);
    wipe_stack();
    return status;
}
