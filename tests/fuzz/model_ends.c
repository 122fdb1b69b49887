/* What both ends of a handshake do alike, written from document 01, "Numbers that come back" and "Secrets". The messages are kept, and no running hash. */
#include "model.h"

#include <string.h>

void model_add(struct messages *so_far, struct bytes message)
{
    if (message.n > TRANSCRIPT_LIMIT - so_far->n)
        fail("the model's transcript is full");
    memcpy(so_far->bytes + so_far->n, message.at, message.n);
    so_far->n += message.n;
}

void model_verify_data(const struct messages *so_far, const uint8_t master[48], uint8_t side, struct answer *a)
{
    static struct answer hash;
    model_sha256((struct bytes){so_far->bytes, so_far->n}, &hash);
    model_finished(side, (struct bytes){master, 48}, (struct bytes){hash.bytes, 32}, a);
}

int32_t model_header(struct bytes m, int awaited, int other)
{
    if (m.n < 4)
        return TN_ALERT_RESULT(50);
    if (m.at[0] != awaited && m.at[0] != other)
        return TN_ALERT_RESULT(10);
    size_t body = (size_t)m.at[1] << 16 | (size_t)m.at[2] << 8 | m.at[3];
    return body != m.n - 4 || m.n > 16384 ? TN_ALERT_RESULT(50) : 0;
}

int32_t model_received_alert(int32_t *phase, uint8_t level, uint8_t description)
{
    bool known = level == 1 || level == 2;
    if (!known || level == 2 || description == 0)
        *phase = TN_PHASE_CLOSED;
    return known ? 0 : TN_ALERT_RESULT(47);
}
