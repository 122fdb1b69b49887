/*
 * The stack that the library's calls touch: a thread paints its own stack below the frame that makes the call, makes it, and looks how far down the paint is
 * gone. The frames of this program between the two, up to 288 bytes, are in the figures. Where there is an earlier library to compare with, the program with
 * that library measures itself.
 */
#include <pthread.h>
#include <stdio.h>
#include <sys/mman.h>

#include "cases.h"
#include "client_login.h"
#include "edits.h"
#include "login.h"
#include "measure.h"
#include "parts.h"
#include "records.h"
#include "session.h"
#include "worker.h"

enum { STACK = 1 << 20, PAINT = 0xA5, OWN = 256 /* bytes below the painter's frame that it needs itself */ };
enum { AIM = 1024 /* bytes of an edit beyond those of the table's test */, RECORD_AIM = 26624 /* of any call on records */ };
/* The calls behind the parts */
enum { LARGE = PARTS, TEST, MAKE_LIST, LOOKUP, EDIT, SESSION = EDIT + EDITS, CLIENT = SESSION + SESSION_PARTS, NOTHING = CLIENT + CLIENT_PARTS, MEASURED };

static uint8_t *stack;
static struct login large;

static int32_t call_large_hello(void)
{
    return login_open(&large, TN_RULE_TELL) - 1;
}

static int32_t call_nothing(void)
{
    return 0;
}

/* Bytes below the frame of this function that the call wrote to. */
__attribute__((noinline)) static size_t touched(int32_t (*call)(void))
{
    volatile uint8_t *top = __builtin_frame_address(0), *p;
    for (p = stack; p < top - OWN; p++)
        *p = PAINT;
    must(call() >= 0, "a call is refused");
    for (p = stack; p < top - OWN && *p == PAINT; p++)
        continue;
    return (size_t)(top - p);
}

static void touched_by(const struct part *calls, size_t n, size_t *sizes)
{
    for (size_t i = 0; i < n; i++) {
        calls[i].ready(calls[i].phase);
        sizes[i] = touched(calls[i].call);
    }
}

static void *run_calls(void *state)
{
    size_t *sizes = state;
    touched_by(parts, PARTS, sizes);
    touched_by(session_parts, SESSION_PARTS, sizes + SESSION);
    touched_by(client_parts, CLIENT_PARTS, sizes + CLIENT);
    sizes[LARGE] = touched(call_large_hello);
    edit_ready(&edits[EDITS - 1]);
    sizes[TEST] = touched(edit_test);
    sizes[MAKE_LIST] = touched(edit_list);
    sizes[LOOKUP] = touched(edit_look_up);
    for (size_t i = 0; i < EDITS; i++) {
        edit_ready(&edits[i]);
        sizes[EDIT + i] = touched(edits[i].call);
    }
    sizes[NOTHING] = touched(call_nothing);
    return NULL;
}

static int is_edit(size_t i)
{
    return i >= EDIT && i < SESSION;
}

static int is_session(size_t i)
{
    return i >= SESSION && i < CLIENT;
}

static int is_client(size_t i)
{
    return i >= CLIENT && i < NOTHING;
}

static const char *name_of(size_t i)
{
    static const char *const others[] = {
        [LARGE] = "start and a ClientHello of 16 KiB", [TEST] = "the table's test", [MAKE_LIST] = "the table's list", [LOOKUP] = "a lookup",
        [NOTHING] = "no call",
    };
    if (i < PARTS)
        return parts[i].name;
    if (is_edit(i))
        return edits[i - EDIT].name;
    if (is_session(i))
        return session_parts[i - SESSION].name;
    if (is_client(i))
        return client_parts[i - CLIENT].name;
    return others[i];
}

static int takes_record(size_t i)
{
    return i >= SESSION + SESSION_HELLO && i <= SESSION + SESSION_TAKE_REST;
}

static void print_record_aim(size_t size)
{
    printf("   aim %d: %s", RECORD_AIM, size <= RECORD_AIM ? "met" : "missed");
    if (size > RECORD_AIM)
        printf(" by %zu", size - RECORD_AIM);
}

/* `before` is NULL where there is no earlier library. */
static void print_sizes(const size_t sizes[MEASURED], const size_t before[MEASURED])
{
    printf("\nStack, bytes below the calling frame\n");
    for (size_t i = 0; i < MEASURED; i++) {
        must(sizes[i] <= (takes_record(i) ? TN_RECORD_STACK_LIMIT : TN_STACK_LIMIT), "a call reaches below its limit in turretnail.h");
        printf("  %-52s %9zu", name_of(i), sizes[i]);
        if (before != NULL)
            printf("   before %zu   difference %+ld", before[i], (long)sizes[i] - (long)before[i]);
        if (is_edit(i))
            printf("   beyond the test %ld   aim %d: %s", (long)sizes[i] - (long)sizes[TEST], AIM, sizes[i] < sizes[TEST] + AIM ? "met" : "missed");
        if (is_session(i))
            print_record_aim(sizes[i]);
        printf("\n");
    }
}

static void measure_calls(size_t sizes[MEASURED])
{
    pthread_attr_t attributes;
    pthread_t thread;
    parts_prepare();
    edits_prepare();
    client_prepare();
    (void)session_prepare();
    records_stop();
    login_plain_hello(&large, TN_SUITE_PSK_AES_128_CBC_SHA256, TN_MESSAGE_LIMIT - 48, 1);
    stack = mmap(NULL, STACK, PROT_READ | PROT_WRITE, MAP_PRIVATE | MAP_ANONYMOUS, -1, 0);
    must(stack != MAP_FAILED && pthread_attr_init(&attributes) == 0 && pthread_attr_setstack(&attributes, stack, STACK) == 0
             && pthread_create(&thread, &attributes, run_calls, sizes) == 0 && pthread_join(thread, NULL) == 0,
         "no thread");
    munmap(stack, STACK);
}

static void answer_sizes(void)
{
    size_t sizes[MEASURED];
    measure_calls(sizes);
    worker_answer(sizes, sizeof sizes);
}

void task_stack(void)
{
    worker_serve(answer_sizes);
}

void bench_stack(void)
{
    size_t sizes[MEASURED], sizes_before[MEASURED];
    struct worker before = {.program = earlier_program(), .task = TASK_STACK};
    measure_calls(sizes);
    if (before.program != NULL) {
        worker_start(&before);
        worker_ask(&before, sizes_before, sizeof sizes_before);
        worker_stop(&before);
    }
    print_sizes(sizes, before.program != NULL ? sizes_before : NULL);
}
