/* Bytes on their way from one end of a connection to the other, and the key that both ends have. */
#include <string.h>

#include "measure.h"
#include "peers.h"

const uint8_t peer_key[PEER_KEY_SIZE] = {0x00, 0x11, 0x22, 0x33, 0x44, 0x55, 0x66, 0x77, 0x88, 0x99, 0xaa, 0xbb, 0xcc, 0xdd, 0xee, 0xff};

size_t wire_put(struct wire *w, const void *from, size_t n)
{
    must(n <= sizeof w->bytes - w->end, "the wire is full");
    memcpy(w->bytes + w->end, from, n);
    w->end += n;
    return n;
}

size_t wire_take(struct wire *w, void *to, size_t n)
{
    size_t size = n < w->end - w->at ? n : w->end - w->at;
    memcpy(to, w->bytes + w->at, size);
    w->at += size;
    return size;
}
