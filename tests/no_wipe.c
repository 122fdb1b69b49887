/* In place of gateway/wipe.c in a gateway that has to fail tests/keys_in_memory.py. */
#include "../gateway/wipe.h"

void wipe_stack(void)
{
}

bool forbid_dumps(void)
{
    return true;
}
