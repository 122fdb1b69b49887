/* The gate's command line, and its exit statuses, which are a part of it. */
#ifndef HOST_GATE_OPTIONS_H
#define HOST_GATE_OPTIONS_H

#include "arguments.h"

/* What comes of a run, and is its exit status. */
enum status {
    DONE,       /* each line was answered */
    FAILED,     /* the system refuses something */
    MISUSED,    /* the command line, or a line that no gateway takes */
    BAD_KEYS,   /* the file with the key can't be read, or is not well formed */
    UNLISTED,   /* it has no such identity */
    NOT_FOUND,  /* the server's name */
    NO_ANSWER,  /* nobody can be connected to there */
    TIME_OUT,   /* of connecting, login or an answer */
    WAS_TOLD,   /* the server sent an alert */
    HAS_TOLD,   /* what the server sent was refused with an alert */
    NOT_OPENED, /* a protected record of the server did not open, and was refused with an alert */
    LOST        /* the server closed too early */
};

struct gate_options {
    const char *server; /* HOST:PORT as it was given, */
    char host[256];     /* and its parts */
    char port[6];
    const char *keys;     /* a file; "-": standard input */
    const char *identity; /* NULL: the file's only one */
    unsigned connect_seconds, handshake_seconds, answer_seconds;
    bool blocks;  /* say how many the master secret took */
    char **lines; /* to be sent; none: those of standard input */
    int count;
};

/* Reads the command line. */
enum reading gate_options_read(struct gate_options *options, int count, char **words);

#endif
