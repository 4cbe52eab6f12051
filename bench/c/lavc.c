/* The way of libavcodec: look at every second byte, since one of two zeros side by side is among
   them, and copy runs. Written anew from this description. */

#include "peers.h"

#define NOT_LEGAL SIZE_MAX

/* One bit in every second byte of a word, and the top bits of these bytes. */
#define ONES 0x0001000100010001
#define TOPS 0x0080008000800080

/* Whether every second of eight bytes, from the first on, is other than 0; where two zeros stand
   side by side it can say no without need. */
static inline int none_zero(const uint8_t *bytes)
{
    uint64_t word;
    memcpy(&word, bytes, sizeof word);
    return ((word - ONES) & ~word & TOPS) == 0;
}

/* The first place from i on where 00 00 and a byte up to 3 stand, or `len`. */
static size_t next_critical(const uint8_t *s, size_t i, size_t len)
{
    size_t k = i + 1;
    while (k + 1 < len) {
        if (k + 8 <= len && none_zero(s + k)) {
            k += 8;
            continue;
        }
        if (s[k] == 0) {
            if (s[k - 1] == 0 && s[k + 1] <= 3)
                return k - 1;
            if (s[k + 1] == 0 && k + 2 < len && s[k + 2] <= 3)
                return k;
        }
        k += 2;
    }
    return len;
}

/* Whether 00 00 and a byte up to 3, at the front of `left` bytes, are legal: 03 before a byte up to
   3 or the end. */
static inline int legal_at(const uint8_t *p, size_t left)
{
    return p[2] == 3 && (left == 3 || p[3] <= 3);
}

static size_t payload_end(const uint8_t *unit, size_t i, size_t len, size_t *dropped)
{
    *dropped = 0;
    for (;;) {
        i = next_critical(unit, i, len);
        if (i == len || unit[i + 2] == 1)
            return i;
        if (legal_at(unit + i, len - i)) {
            ++*dropped;
            i += 3;
        } else if (zeros_before_start_code(unit + i, len - i)) {
            i++;
        } else {
            return NOT_LEGAL;
        }
    }
}

static void write_unescaped(const uint8_t *payload, size_t len, uint8_t *out, size_t kept)
{
    size_t from = 0, i;
    (void)kept;
    while ((i = next_critical(payload, from, len)) < len) {
        memcpy(out, payload + from, i + 2 - from);
        out += i + 2 - from;
        from = i + 3;
    }
    memcpy(out, payload + from, len - from);
}

static inline void copy(uint8_t *out, const uint8_t *bytes, size_t len)
{
    memcpy(out, bytes, len);
}

#include "one_pass.h"

ONE_PASS_FUNCTIONS(lavc)

/* Writes while it looks: what is refused has left bytes in `out`. */
plain_answer lavc_unescape(const uint8_t *payload, size_t len, uint8_t *out, size_t room)
{
    plain_answer a = {0, 0, 0, 0, 0};
    size_t from = 0, i;
    if (len > MAX_PAYLOAD_BYTES || len > room)
        return plain_unescape(payload, len, out, room);
    while ((i = next_critical(payload, from, len)) < len) {
        if (!legal_at(payload + i, len - i))
            return plain_unescape(payload, len, out, room);
        memcpy(out + a.count, payload + from, i + 2 - from);
        a.count += i + 2 - from;
        a.dropped++;
        from = i + 3;
    }
    memcpy(out + a.count, payload + from, len - from);
    a.count += len - from;
    return a;
}

/* Four bytes a turn: table k is a byte followed by k zeros. */
static uint32_t tables[4][256];

static void fill_tables(void)
{
    for (uint32_t i = 0; i < 256; i++) {
        uint32_t r = i << 24;
        for (int bit = 0; bit < 8; bit++)
            r = r << 1 ^ (r >> 31 ? POLYNOMIAL : 0);
        tables[0][i] = r;
    }
    for (int k = 1; k < 4; k++)
        for (int i = 0; i < 256; i++)
            tables[k][i] = tables[k - 1][i] << 8 ^ tables[0][tables[k - 1][i] >> 24];
}

uint64_t lavc_crc32(const uint8_t *bytes, size_t len)
{
    uint32_t r = 0xFFFFFFFF;
    /* Only an empty table has 0 here. */
    if (tables[0][1] == 0)
        fill_tables();
    for (; len >= 4; bytes += 4, len -= 4) {
        r ^= (uint32_t)bytes[0] << 24 | (uint32_t)bytes[1] << 16 | (uint32_t)bytes[2] << 8 | bytes[3];
        r = tables[3][r >> 24] ^ tables[2][r >> 16 & 0xFF] ^ tables[1][r >> 8 & 0xFF]
            ^ tables[0][r & 0xFF];
    }
    for (; len > 0; bytes++, len--)
        r = r << 8 ^ tables[0][r >> 24 ^ *bytes];
    return r;
}
