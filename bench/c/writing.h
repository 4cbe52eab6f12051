/* Writing a unit, by whatever way the OBUs are escaped. */

#ifndef WRITING_H
#define WRITING_H

#include "judge.h"

typedef size_t (*escaped_length)(const uint8_t *obu, size_t len);
typedef size_t (*write_escaped)(const uint8_t *obu, size_t len, uint8_t *out);

/* Whether the lengths add up to `len`. */
static inline int add_up(const size_t *lengths, size_t n, size_t len)
{
    for (size_t k = 0; k < n; k++) {
        if (lengths[k] > len)
            return 0;
        len -= lengths[k];
    }
    return len == 0;
}

static inline plain_answer write_unit(const uint8_t *obus, size_t len, const size_t *lengths, size_t n,
                                      uint8_t *out, size_t room, escaped_length length_of,
                                      write_escaped write)
{
    plain_answer a = {0, 0, 0, 0, 0};
    uint8_t kinds[MAX_OBUS];
    const uint8_t *obu = obus;
    size_t need = 0, breaks;
    if (n == 0 || n > MAX_OBUS)
        return plain_refused(1, 0);
    if (len > MAX_OBU_BYTES || !add_up(lengths, n, len))
        return plain_refused(2, 0);
    for (size_t k = 0; k < n; obu += lengths[k++]) {
        uint64_t number = lengths[k] == 0 ? 3 : try_obu(obu, lengths[k], &kinds[k]);
        if (number != 0)
            return plain_refused(number, k);
    }
    breaks = order_breaks(kinds, n);
    if (breaks <= n)
        return plain_refused(7, breaks);
    obu = obus;
    for (size_t k = 0; k < n; obu += lengths[k++])
        need += 3 + length_of(obu, lengths[k]);
    if (need > room)
        return plain_refused(8, 0);
    obu = obus;
    for (size_t k = 0; k < n; obu += lengths[k++]) {
        out[a.count++] = 0;
        out[a.count++] = 0;
        out[a.count++] = 1;
        a.count += write(obu, lengths[k], out + a.count);
    }
    return a;
}

#endif
