/* Alerts (RFC 5246 section 7.2): those numbers that the library has no name for, and all names. */
#ifndef HOST_ALERTS_H
#define HOST_ALERTS_H

#include <stdint.h>

enum { ALERT_CLOSE_NOTIFY = 0, ALERT_INTERNAL_ERROR = 80 };
enum { LEVEL_WARNING = 1, LEVEL_FATAL = 2 };

/* The alert's name in RFC 5246, RFC 4279 or the registry that has grown from them; empty where it has none. */
const char *alert_name(uint8_t alert);

#endif
