/* Linked to a gate in place of what clears keys in its memory, for tests/keys_in_memory.py, which has to find them there. */
#include <stddef.h>

void __wrap_OPENSSL_cleanse(void *bytes, size_t n);

void __wrap_OPENSSL_cleanse(void *bytes, size_t n)
{
    (void)bytes;
    (void)n;
}
