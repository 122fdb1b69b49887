/* What keeps keys from outliving their use, beside clearing what a connection and the table hold. */
#ifndef HOST_WIPE_H
#define HOST_WIPE_H

#include <stdbool.h>

/* Clears the dead stack below the caller's frame, as far as the library's calls, libcrypto's and our own reach. */
void wipe_stack(void);

/* No core dump, and no other process of the same user may look into this one; false where the system refuses. */
bool forbid_dumps(void);

#endif
