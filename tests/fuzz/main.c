/*
 * The differential test: differential [ROUNDS [SEED [tell]]]. A few sweeps, and then rounds of which each draws from a seed of its own, which a failure
 * prints; `tell` lists the results that were met.
 */
#include "compare.h"

#include <inttypes.h>
#include <sanitizer/common_interface_defs.h>
#include <stdio.h>
#include <stdlib.h>
#include <time.h>

#define ROUNDS 30000u
#define FEW 2000u /* in fewer rounds some results may not be met */

#define ALERT(a) TN_ALERT_RESULT(a)

/* Every result that the header names, 2 for "so many bytes". A test that never met one of them would say nothing about it. */
static const struct {
    const char *call;
    int32_t said[12]; /* up to the first 99 */
} expected[] = {
    {"tn_start", {0, TN_R3, 99}},
    {"tn_message", {0, 16, 46, 2, TN_R1, TN_R2, TN_R4, ALERT(10), ALERT(50), ALERT(51), ALERT(115), 99}},
    {"tn_message", {TN_R10, ALERT(40), ALERT(47), ALERT(70), 99}},
    {"tn_change_of_cipher", {0, TN_R4, ALERT(10), 99}},
    {"tn_alert", {0, TN_R4, ALERT(47), 99}},
    {"tn_phase", {0, 1, 2, 99}},
    {"tn_suite", {0, 2, 99}},
    {"tn_client_start", {2, TN_R1, TN_R3, 99}},
    {"tn_client_message", {0, 2, TN_R1, TN_R4, ALERT(10), ALERT(47), ALERT(50), ALERT(51), ALERT(70), ALERT(110), 99}},
    {"tn_client_change_of_cipher", {0, TN_R4, ALERT(10), 99}},
    {"tn_client_alert", {0, TN_R4, ALERT(47), 99}},
    {"tn_client_phase", {0, 1, 2, 99}},
    {"tn_client_suite", {0, 2, 99}},
    {"tn_sha256", {2, TN_R1, 99}},
    {"tn_hmac", {2, TN_R1, 99}},
    {"tn_prf", {0, 2, TN_R1, TN_R5, 99}},
    {"tn_premaster", {2, TN_R1, TN_R5, 99}},
    {"tn_master", {2, TN_R1, TN_R5, 99}},
    {"tn_key_block", {2, TN_R1, TN_R5, 99}},
    {"tn_key_block_length", {0, 2, 99}},
    {"tn_finished", {2, TN_R1, TN_R5, 99}},
    {"tn_write_client_hello", {2, TN_R1, TN_R5, 99}},
    {"tn_write_server_hello", {2, TN_R1, TN_R5, 99}},
    {"tn_write_server_key_exchange", {2, TN_R1, TN_R5, 99}},
    {"tn_write_client_key_exchange", {2, TN_R1, TN_R5, 99}},
    {"tn_write_server_hello_done", {2, TN_R1, 99}},
    {"tn_write_finished", {16, TN_R1, TN_R5, 99}},
    {"tn_write_new_session_ticket", {2, TN_R1, TN_R5, 99}},
    {"tn_write_extension", {2, TN_R1, TN_R5, 99}},
    {"tn_write_ticket_extension", {2, TN_R1, TN_R5, 99}},
    {"tn_read_client_hello", {0, ALERT(50), 99}},
    {"tn_read_server_hello", {0, ALERT(50), 99}},
    {"tn_read_server_key_exchange", {0, ALERT(50), 99}},
    {"tn_read_client_key_exchange", {0, ALERT(50), 99}},
    {"tn_read_finished", {0, ALERT(50), 99}},
    {"tn_read_server_hello_done", {0, ALERT(50), 99}},
    {"tn_read_new_session_ticket", {0, ALERT(50), 99}},
    {"tn_next_extension", {0, 1, ALERT(50), 99}},
    {"tn_table_test", {0, TN_R2, 99}},
    {"tn_table_list", {0, 1, 2, TN_R1, TN_R2, 99}},
    {"tn_table_lookup", {1, 2, TN_R1, TN_R10, ALERT(115), 99}},
    {"tn_table_add", {2, TN_R1, TN_R2, TN_R5, TN_R6, TN_R8, TN_R10, 99}},
    {"tn_table_replace", {2, TN_R1, TN_R2, TN_R5, TN_R7, TN_R8, TN_R10, 99}},
    {"tn_table_retire", {0, 2, TN_R2, TN_R5, TN_R7, TN_R10, 99}},
    {"tn_valid_utf8", {0, 1, 99}},
    {"tn_record_start", {0, TN_R3, 99}},
    {"tn_take_record", {0, 2, TN_R1, TN_R2, TN_R4, TN_R9, ALERT(10), ALERT(20), ALERT(22), ALERT(40), ALERT(47), 99}},
    {"tn_take_record", {TN_R10, ALERT(50), ALERT(51), ALERT(70), ALERT(115), 99}},
    {"tn_send_data", {2, TN_R1, TN_R4, TN_R5, TN_R9, 99}},
    {"tn_send_close", {2, TN_R1, TN_R4, TN_R9, 99}},
    {"tn_closing_alert", {0, 2, TN_R1, 99}},
    {"tn_record_phase", {0, 1, 2, 99}},
    {"tn_read_record", {0, ALERT(10), ALERT(22), ALERT(50), 99}},
    {"tn_write_record", {2, TN_R1, TN_R5, 99}},
    {"tn_seal_record", {2, TN_R1, TN_R5, 99}},
    {"tn_open_record", {0, 2, ALERT(10), ALERT(20), ALERT(22), ALERT(50), 99}},
    {"tn_message_end", {2, 99}},
};

static void expect_every_result(bool tell)
{
    for (size_t i = 0; i < sizeof expected / sizeof expected[0]; i++)
        for (size_t k = 0; expected[i].said[k] != 99; k++) {
            unsigned long times = times_seen(expected[i].call, expected[i].said[k]);
            if (tell)
                printf("%-30s %6d %9lu\n", expected[i].call, (int)expected[i].said[k], times);
            if (times == 0)
                fail("%s never gave %d", expected[i].call, (int)expected[i].said[k]);
        }
}

/* UndefinedBehaviorSanitizer calls this by its name where it reports something. */
void __ubsan_on_report(void);
void __ubsan_on_report(void)
{
    say_where();
}

static void sweep(void)
{
    every_suite();
    every_premaster();
    every_long_message();
    every_character();
    every_odd_table();
    every_edit();
    every_list();
    every_alert();
    every_bit();
    every_key();
    every_content();
    every_cut();
    every_record_bit();
    every_record_room();
    every_record_key();
    every_number();
    every_server_hello();
    every_client_message();
    every_client_byte();
    every_client_room();
}

int main(int count, char **arguments)
{
    unsigned long rounds = count > 1 ? strtoul(arguments[1], NULL, 0) : ROUNDS;
    uint64_t seed = count > 2 ? strtoull(arguments[2], NULL, 0) : 1;
    time_t start = time(NULL);
    run_again = "build/differential 1";
    run_seed = seed;
    __sanitizer_set_death_callback(say_where);
    draw_from(seed);
    sweep();
    for (unsigned long i = 0; i < rounds; i++) {
        run_seed = seed + i;
        draw_from(run_seed);
        secrets_round();
        layouts_round();
        table_round();
        edits_round();
        server_round();
        records_round();
        client_round();
    }
    if (rounds >= FEW)
        expect_every_result(count > 3);
    printf("differential: %lu rounds from seed %" PRIu64 ", %lu calls, %ld s: all as the models%s\n", rounds, seed, calls_made(), (long)(time(NULL) - start),
           rounds >= FEW ? ", each result of the header met" : "");
    return 0;
}
