/* Escaping and unescaping one OBU. */

#include "plain.h"

size_t plain_escaped_length(const uint8_t *obu, size_t len)
{
    size_t n = len;
    unsigned zeros = 0;
    for (size_t i = 0; i < len; i++) {
        if (zeros == 2 && obu[i] <= 3) {
            n++;
            zeros = 0;
        }
        zeros = obu[i] == 0 ? zeros + 1 : 0;
    }
    return n;
}

size_t plain_write_escaped(const uint8_t *obu, size_t len, uint8_t *out)
{
    size_t n = 0;
    unsigned zeros = 0;
    for (size_t i = 0; i < len; i++) {
        if (zeros == 2 && obu[i] <= 3) {
            out[n++] = 3;
            zeros = 0;
        }
        out[n++] = obu[i];
        zeros = obu[i] == 0 ? zeros + 1 : 0;
    }
    return n;
}

size_t plain_judge(const uint8_t *payload, size_t len, size_t *dropped)
{
    size_t count = 0;
    for (size_t i = 0; i + 2 < len; i++) {
        if (payload[i] == 0 && payload[i + 1] == 0 && payload[i + 2] <= 3) {
            if (payload[i + 2] < 3 || (i + 3 < len && payload[i + 3] > 3))
                return i;
            count++;
        }
    }
    *dropped = count;
    return len;
}

size_t plain_write_unescaped(const uint8_t *payload, size_t len, uint8_t *out)
{
    size_t n = 0;
    unsigned zeros = 0;
    for (size_t i = 0; i < len; i++) {
        if (zeros == 2 && payload[i] == 3) {
            zeros = 0;
        } else {
            out[n++] = payload[i];
            zeros = payload[i] == 0 ? zeros + 1 : 0;
        }
    }
    return n;
}

plain_answer plain_escape(const uint8_t *obu, size_t len, uint8_t *out, size_t room)
{
    plain_answer a = {0, 0, 0, 0, 0};
    if (len > MAX_OBU_BYTES)
        return plain_refused(2, 0);
    if (plain_escaped_length(obu, len) > room)
        return plain_refused(8, 0);
    a.count = plain_write_escaped(obu, len, out);
    return a;
}

plain_answer plain_unescape(const uint8_t *payload, size_t len, uint8_t *out, size_t room)
{
    plain_answer a = {0, 0, 0, 0, 0};
    size_t dropped = 0, place;
    if (len > MAX_PAYLOAD_BYTES)
        return plain_refused(2, 0);
    place = plain_judge(payload, len, &dropped);
    if (place != len)
        return plain_refused(10, place);
    if (len - dropped > room)
        return plain_refused(8, 0);
    a.count = plain_write_unescaped(payload, len, out);
    a.dropped = dropped;
    return a;
}
