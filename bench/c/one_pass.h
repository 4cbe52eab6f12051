/* Checking and reading a unit in one pass, for a peer that has defined before:

   size_t payload_end(const uint8_t *unit, size_t i, size_t len, size_t *dropped)
       where the payload that begins at i ends, which is at a start code or at `len`, and the bytes
       to drop; or NOT_LEGAL.
   void write_unescaped(const uint8_t *payload, size_t len, uint8_t *out, size_t kept)
       writes a legal payload's `kept` bytes.
   void copy(uint8_t *out, const uint8_t *bytes, size_t len)

   A unit that is not taken goes to the plain judge, which says by what number it is refused. */

#include "judge.h"

/* Judges the OBU in a payload, which is legal, and gives its kind. */
static inline uint64_t judge_part(const uint8_t *payload, const payload_part *part, uint8_t *kind)
{
    if (part->len == 0)
        return 3;
    return part->dropped == 0 ? try_obu(payload, part->len, kind) : try_escaped(payload, part, kind);
}

/* Finds the payloads of a unit that begins with a start code, and judges them; gives how many, or 0
   where something is wrong. */
static inline size_t judge_parts(const uint8_t *unit, size_t len, payload_part *parts)
{
    uint8_t kinds[MAX_OBUS];
    size_t n = 0, end = 0;
    while (end < len) {
        payload_part *part = &parts[n];
        if (n == MAX_OBUS)
            return 0;
        part->from = end + 3;
        end = payload_end(unit, part->from, len, &part->dropped);
        if (end == NOT_LEGAL)
            return 0;
        part->len = end - part->from;
        if (judge_part(unit + part->from, part, &kinds[n++]) != 0)
            return 0;
    }
    return order_breaks(kinds, n) > n ? n : 0;
}

/* The answer of the check; also gives the payloads. */
static inline plain_answer judge_in_one_pass(const uint8_t *unit, size_t len, payload_part *parts)
{
    size_t n = len <= MAX_UNIT_BYTES && len >= 3 && start_code_at(unit) ? judge_parts(unit, len, parts) : 0;
    plain_answer a = figures_of(parts, n);
    return n == 0 || a.bytes > MAX_OBU_BYTES ? plain_check_unit(unit, len) : a;
}

static inline plain_answer check_in_one_pass(const uint8_t *unit, size_t len)
{
    payload_part parts[MAX_OBUS];
    return judge_in_one_pass(unit, len, parts);
}

static inline void write_one(const uint8_t *payload, const payload_part *part, uint8_t *out)
{
    if (part->dropped == 0)
        copy(out, payload, part->len);
    else
        write_unescaped(payload, part->len, out, part->len - part->dropped);
}

static inline plain_answer read_in_one_pass(const uint8_t *unit, size_t len, unit_outputs to)
{
    payload_part parts[MAX_OBUS];
    plain_answer a = judge_in_one_pass(unit, len, parts);
    return read_parts(unit, parts, a, to, write_one);
}

/* The two functions of a peer. */
#define ONE_PASS_FUNCTIONS(peer)                                                                   \
    plain_answer peer##_check_unit(const uint8_t *unit, size_t len)                                \
    {                                                                                              \
        return check_in_one_pass(unit, len);                                                       \
    }                                                                                              \
    plain_answer peer##_read_unit(const uint8_t *unit, size_t len, uint8_t *out, size_t room,      \
                                  size_t *lengths, size_t n)                                       \
    {                                                                                              \
        return read_in_one_pass(unit, len, (unit_outputs){out, room, lengths, n});                 \
    }
