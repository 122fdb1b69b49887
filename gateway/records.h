/*
 * TLS 1.2 records (RFC 5246 section 6.2) and their protection by libcrypto, for the three suites of the library: AES-128-CBC with HMAC-SHA256 or
 * HMAC-SHA1, and no cipher with HMAC-SHA256.
 */
#ifndef HOST_RECORDS_H
#define HOST_RECORDS_H

#include <stdbool.h>
#include <stddef.h>
#include <stdint.h>

enum {
    RECORD_HEADER = 5,           /* type, version, length of the fragment */
    RECORD_CONTENT_LIMIT = 16384, /* content of one record */
    RECORD_IV = 16,
    RECORD_MAC_LIMIT = 32,
    RECORD_PADDING_LIMIT = 256,  /* the byte that holds its length included */
    RECORD_OVERHEAD_LIMIT = RECORD_IV + RECORD_MAC_LIMIT + RECORD_PADDING_LIMIT,
    RECORD_LIMIT = RECORD_HEADER + RECORD_CONTENT_LIMIT + RECORD_OVERHEAD_LIMIT,
    /* what a record that we send takes beside its content: our padding is the shortest */
    RECORD_SEAL_OVERHEAD = RECORD_HEADER + RECORD_IV + RECORD_MAC_LIMIT + 16
};

enum record_type { RECORD_CHANGE_CIPHER_SPEC = 20, RECORD_ALERT = 21, RECORD_HANDSHAKE = 22, RECORD_APPLICATION_DATA = 23 };

struct suite {
    uint16_t number;
    const char *name; /* as OpenSSL has it */
    const char *digest;
    size_t mac_size;    /* of the MAC and of its key */
    size_t cipher_size; /* of the cipher's key; 0: no cipher */
};

/* The suite of this number, or NULL. */
const struct suite *suite_of(uint32_t number);

/* One direction of a connection. All zero is the state at the start: no suite, no protection. */
struct protection {
    const struct suite *suite;
    uint64_t sequence;
    uint8_t mac_key[RECORD_MAC_LIMIT];
    uint8_t cipher_key[16];
};

/* Makes and drops what libcrypto needs; records_start is false where it can't be had. */
bool records_start(void);
void records_stop(void);

/* Overwrites the last keys that libcrypto's contexts have seen. */
void records_forget(void);

/* Cuts a key block (RFC 5246 section 6.3) for both directions; false where its length is not the suite's. */
bool protection_cut(const struct suite *suite, const uint8_t *block, size_t n, struct protection *client, struct protection *server);

/* Whether the byte is a content type of TLS 1.2. */
bool record_type_known(uint8_t type);

/* The longest fragment that may come under this protection. */
size_t record_fragment_limit(const struct protection *p);

/* Writes one record with the content to out and counts it. Its length, or 0 where there is no room, the content is too long or libcrypto fails. */
size_t record_seal(struct protection *p, enum record_type type, const uint8_t *content, size_t n, uint8_t *out, size_t room);

enum record_verdict {
    RECORD_OPENED,
    RECORD_BAD,      /* MAC or padding: the two are not told apart */
    RECORD_TOO_LONG, /* content over the limit */
    RECORD_FAILED    /* libcrypto failed */
};

/* Opens the record at `record`, n bytes with its header, in place and counts it. The content stands at record + *start. */
enum record_verdict record_open(struct protection *p, uint8_t *record, size_t n, size_t *start, size_t *length);

#endif
