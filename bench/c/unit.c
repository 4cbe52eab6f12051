/* Writing, reading and checking one access unit. */

#include "writing.h"

/* The places of the start codes, at most one more than allowed; gives their number. */
static size_t find_start_codes(const uint8_t *unit, size_t len, size_t *places)
{
    size_t n = 0;
    for (size_t i = 0; i + 2 < len && n <= MAX_OBUS; i++)
        if (start_code_at(unit + i))
            places[n++] = i;
    return n;
}

/* Tries 3, 10, 4, 5, 6, 42 on one payload; also gives the bytes to drop and the OBU's kind. */
static uint64_t try_payload(const uint8_t *payload, payload_part *part, uint8_t *kind)
{
    if (part->len == 0)
        return 3;
    if (plain_judge(payload, part->len, &part->dropped) != part->len)
        return 10;
    return try_escaped(payload, part, kind);
}

/* Tries all refusals of reading but 8; also gives the payloads. */
static plain_answer judge_unit(const uint8_t *unit, size_t len, payload_part *parts)
{
    plain_answer a;
    uint8_t kinds[MAX_OBUS];
    size_t places[MAX_OBUS + 1], n, breaks;
    if (len > MAX_UNIT_BYTES)
        return plain_refused(2, 0);
    if (len < 3 || !start_code_at(unit))
        return plain_refused(9, 0);
    n = find_start_codes(unit, len, places);
    if (n > MAX_OBUS)
        return plain_refused(1, 0);
    places[n] = len;
    for (size_t k = 0; k < n; k++) {
        uint64_t number;
        parts[k].from = places[k] + 3;
        parts[k].len = places[k + 1] - parts[k].from;
        number = try_payload(unit + parts[k].from, &parts[k], &kinds[k]);
        if (number != 0)
            return plain_refused(number, k);
    }
    a = figures_of(parts, n);
    if (a.bytes > MAX_OBU_BYTES)
        return plain_refused(2, 0);
    breaks = order_breaks(kinds, n);
    return breaks <= n ? plain_refused(7, breaks) : a;
}

plain_answer plain_check_unit(const uint8_t *unit, size_t len)
{
    payload_part parts[MAX_OBUS];
    return judge_unit(unit, len, parts);
}

static inline void write_one(const uint8_t *payload, const payload_part *part, uint8_t *out)
{
    plain_write_unescaped(payload, part->len, out);
}

plain_answer plain_read_unit(const uint8_t *unit, size_t len, uint8_t *out, size_t room,
                             size_t *lengths, size_t n)
{
    payload_part parts[MAX_OBUS];
    plain_answer a = judge_unit(unit, len, parts);
    return read_parts(unit, parts, a, (unit_outputs){out, room, lengths, n}, write_one);
}

plain_answer plain_write_unit(const uint8_t *obus, size_t len, const size_t *lengths, size_t n,
                              uint8_t *out, size_t room)
{
    return write_unit(obus, len, lengths, n, out, room, plain_escaped_length, plain_write_escaped);
}
