/*
 * What keeps keys from outliving their use.
 *
 * A login reaches some 11,300 bytes below the caller of connection.c, and 41,100 where the library reads the records; 13,700 and 43,200 where it is built with
 * sanitizers. The gate's reaches 13,200 below the caller of gate_session.c, 15,400 with sanitizers. The library's limit for tn_take_record, the deepest of its
 * calls, leaves a margin for all of them.
 */
#include "wipe.h"

#include <sys/prctl.h>
#include <sys/resource.h>

#include "turretnail.h"

void wipe_stack(void)
{
    tn_clear_stack(TN_RECORD_STACK_LIMIT);
}

bool forbid_dumps(void)
{
    const struct rlimit none = {0, 0};
    return setrlimit(RLIMIT_CORE, &none) == 0 && prctl(PR_SET_DUMPABLE, 0, 0, 0, 0) == 0;
}
