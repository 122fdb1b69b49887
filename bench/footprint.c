/*
 * A program that does nothing but hold the library's calls, to see their size in a linked program: none of them, those that a server over messages needs
 * (-DCALLS=1), those of a server over records (-DCALLS=2), those of a client (-DCALLS=4), or all (-DCALLS=7).
 */
#include "turretnail.h"

#define CALL(f) ((void (*)(void))(f))

void (*const volatile footprint[])(void) = {
#if CALLS & 1
    CALL(tn_start), CALL(tn_message), CALL(tn_change_of_cipher), CALL(tn_alert), CALL(tn_phase), CALL(tn_suite), CALL(tn_key_block), CALL(tn_table_list),
#endif
#if CALLS & 2
    CALL(tn_record_start), CALL(tn_take_record), CALL(tn_send_data), CALL(tn_send_close), CALL(tn_closing_alert), CALL(tn_record_phase), CALL(tn_table_list),
#endif
#if CALLS & 4
    CALL(tn_client_start), CALL(tn_client_message), CALL(tn_client_change_of_cipher), CALL(tn_client_alert), CALL(tn_client_phase), CALL(tn_client_suite),
    CALL(tn_key_block),
#endif
#if CALLS == 7
    CALL(tn_read_record), CALL(tn_write_record), CALL(tn_seal_record), CALL(tn_open_record), CALL(tn_message_end),
    CALL(tn_sha256), CALL(tn_hmac), CALL(tn_prf), CALL(tn_premaster), CALL(tn_master), CALL(tn_key_block_length), CALL(tn_finished),
    CALL(tn_write_client_hello), CALL(tn_write_server_hello), CALL(tn_write_server_key_exchange), CALL(tn_write_client_key_exchange),
    CALL(tn_write_server_hello_done), CALL(tn_write_finished), CALL(tn_write_new_session_ticket), CALL(tn_write_extension), CALL(tn_write_ticket_extension),
    CALL(tn_read_client_hello), CALL(tn_read_server_hello), CALL(tn_read_server_key_exchange), CALL(tn_read_client_key_exchange), CALL(tn_read_finished),
    CALL(tn_read_server_hello_done), CALL(tn_read_new_session_ticket), CALL(tn_next_extension), CALL(tn_table_lookup), CALL(tn_table_add),
    CALL(tn_table_replace), CALL(tn_table_retire), CALL(tn_table_test), CALL(tn_valid_utf8),
#endif
    0,
};

int main(void)
{
    return footprint[0] == 0;
}
