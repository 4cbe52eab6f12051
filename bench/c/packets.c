/* The packet loop with memcpy; no unit is checked. */

#include "packets.h"

static inline void copy(uint8_t *out, const uint8_t *bytes, size_t len)
{
    memcpy(out, bytes, len);
}

static inline int no_check(const uint8_t *unit, size_t len)
{
    (void)unit;
    (void)len;
    return 1;
}

packets_answer packets_read(const packets_job *job)
{
    return packets_loop(job, copy, no_check);
}
