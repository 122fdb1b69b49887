/* The gateway's lines on connections. */
#ifndef HOST_REPORT_H
#define HOST_REPORT_H

#include "connection.h"

/* Logs address, gate, suite and outcome on one line. Whatever the client named as its identity is printed so that it can neither end the line nor steer a
 * terminal. Where `blocks` are asked for, the line of a login whose master secret was derived says how many that took. Of logins that failed at most `most`
 * are logged in a second, and the others counted. */
void report(const char *address, const struct connection *c, enum outcome outcome, bool blocks, unsigned most);

/* Logs how many failed logins were only counted in the last second. The milliseconds until there is such a number to be logged; -1: there is none. */
int64_t report_rest(bool at_once);

#endif
