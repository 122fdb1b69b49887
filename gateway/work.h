/*
 * Under the rule hide the work on a ClientKeyExchange takes as long for every name and key. All clients share one loop: whoever has a second connection open
 * could otherwise see there how long the work on the first one took.
 */
#ifndef HOST_WORK_H
#define HOST_WORK_H

#include "connection.h"

/* Measures the work with the settings' table, by logins of a name that is not listed. To be called for each new table. */
void work_measure(const struct settings *settings);

/* Stays until the work on a message that came then, in nanoseconds, has taken as long as it may take. */
void work_even_out(int64_t came);

#endif
