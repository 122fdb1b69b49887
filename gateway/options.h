/* The gateway's command line. */
#ifndef HOST_OPTIONS_H
#define HOST_OPTIONS_H

#include <stdbool.h>
#include <stdint.h>

#include "arguments.h"

struct options {
    const char *address;
    uint16_t port;
    const char *table;
    const char *hint;
    uint8_t rule;               /* one of TN_RULE_.. */
    bool proved_records;        /* the library's, without secrecy; else libcrypto's */
    unsigned long hide_ms;      /* under hide: the tick at which the end of a login is seen; 0: at once */
    unsigned long once;         /* stop after so many connections; 0: never */
    unsigned handshake_seconds; /* for a whole handshake */
    unsigned idle_seconds;      /* without an enrolment line, after it */
    unsigned long clients;      /* at a time */
    unsigned long per_address;  /* unfinished handshakes of one address */
    unsigned long per_gate;     /* connections of one gate */
    unsigned long failed_lines; /* on logins that failed, in a second */
    bool blocks;                /* a login's line says how many its master secret took */
};

/* Reads the command line. */
enum reading options_read(struct options *options, int count, char **words);

#endif
