/* By hand with SSE2, which every x86-64 has and which is the library's own instruction set. */

#include <emmintrin.h>

#include "packets.h"
#include "writing.h"

#define NOT_LEGAL SIZE_MAX

static inline __m128i load(const uint8_t *bytes)
{
    return _mm_loadu_si128((const __m128i *)bytes);
}

static inline void store(uint8_t *out, __m128i bytes)
{
    _mm_storeu_si128((__m128i *)out, bytes);
}

static inline unsigned bits(__m128i mask)
{
    return (unsigned)_mm_movemask_epi8(mask);
}

static inline __m128i up_to_three(__m128i bytes)
{
    return _mm_cmpeq_epi8(_mm_min_epu8(bytes, _mm_set1_epi8(3)), bytes);
}

/* Of 16 places those where two zeros stand. */
static inline __m128i pairs(const uint8_t *s)
{
    return _mm_cmpeq_epi8(_mm_or_si128(load(s), load(s + 1)), _mm_setzero_si128());
}

/* Whether two zeros stand at none of 64 places; reads 65 bytes. */
static inline int no_pair(const uint8_t *s)
{
    __m128i a = _mm_min_epu8(_mm_or_si128(load(s), load(s + 1)),
                             _mm_or_si128(load(s + 16), load(s + 17)));
    __m128i b = _mm_min_epu8(_mm_or_si128(load(s + 32), load(s + 33)),
                             _mm_or_si128(load(s + 48), load(s + 49)));
    return bits(_mm_cmpeq_epi8(_mm_min_epu8(a, b), _mm_setzero_si128())) == 0;
}

static inline void copy_64(uint8_t *out, const uint8_t *s)
{
    __m128i a = load(s), b = load(s + 16), c = load(s + 32), d = load(s + 48);
    store(out, a);
    store(out + 16, b);
    store(out + 32, c);
    store(out + 48, d);
}

static inline void copy(uint8_t *out, const uint8_t *s, size_t len)
{
    size_t i = 0;
    if (len < 16) {
        memcpy(out, s, len);
        return;
    }
    for (; i + 64 <= len; i += 64)
        copy_64(out + i, s + i);
    for (; i + 16 <= len; i += 16)
        store(out + i, load(s + i));
    store(out + len - 16, load(s + len - 16));
}

/* Finding the end of a payload. */

typedef struct {
    size_t at, dropped;
    /* The bytes dropped in groups that nothing stopped, in two parts. */
    __m128i sums;
} place;

/* Goes over groups of 16 places while they fit before `to`; a group reads 19 bytes. Stops at a start
   code, where it gives 1, and before a group that has something else to look at, where it gives 2. */
static inline int over_groups(const uint8_t *s, place *p, size_t to)
{
    const __m128i zero = _mm_setzero_si128();
    for (; p->at + 16 <= to; p->at += 16) {
        const uint8_t *group = s + p->at;
        __m128i pair = pairs(group), third = load(group + 2);
        __m128i legal = _mm_and_si128(_mm_cmpeq_epi8(third, _mm_set1_epi8(3)), up_to_three(load(group + 3)));
        __m128i drop = _mm_and_si128(pair, legal);
        unsigned stops = bits(_mm_andnot_si128(legal, _mm_and_si128(pair, up_to_three(third))));
        if (stops != 0) {
            unsigned k = (unsigned)__builtin_ctz(stops);
            if (group[k + 2] != 1)
                return 2;
            p->dropped += (size_t)__builtin_popcount(bits(drop) & ((1u << k) - 1));
            p->at += k;
            return 1;
        }
        p->sums = _mm_add_epi64(p->sums, _mm_sad_epu8(_mm_sub_epi8(zero, drop), zero));
    }
    return 0;
}

/* The same byte by byte, up to `to`; gives 2 where something is not legal. */
static int over_bytes(const uint8_t *s, place *p, size_t to, size_t len)
{
    for (; p->at < to; p->at++) {
        const uint8_t *b = s + p->at;
        size_t left = len - p->at;
        if (left < 3 || b[0] != 0 || b[1] != 0 || b[2] > 3)
            continue;
        if (b[2] == 1)
            return 1;
        if (b[2] == 3 && (left == 3 || b[3] <= 3))
            p->dropped++;
        else if (!zeros_before_start_code(b, left))
            return 2;
    }
    return 0;
}

static size_t payload_end(const uint8_t *unit, size_t i, size_t len, size_t *dropped)
{
    place p = {i, 0, _mm_setzero_si128()};
    int stop = 0;
    while (stop == 0 && p.at + 19 <= len) {
        if (p.at + 67 <= len && no_pair(unit + p.at)) {
            p.at += 64;
            continue;
        }
        stop = over_groups(unit, &p, p.at + 67 <= len ? p.at + 64 : len - 3);
        if (stop == 2)
            stop = over_bytes(unit, &p, p.at + 16, len);
    }
    if (stop == 0)
        stop = over_bytes(unit, &p, len, len);
    *dropped = p.dropped + (size_t)_mm_cvtsi128_si64(p.sums)
               + (size_t)_mm_cvtsi128_si64(_mm_srli_si128(p.sums, 8));
    return stop == 2 ? NOT_LEGAL : p.at;
}

/* Unescaping. Stores of 16 bytes go over the end of a run, never over the end of what is written. */

/* Writes 16 bytes and gives how many were written: of the places `at`, each is left out, or 03 is put
   in before it. */
static inline size_t recode_16(const uint8_t *s, unsigned at, int insert, uint8_t *out)
{
    size_t n = 0, from = 0;
    for (; at != 0; at &= at - 1) {
        size_t k = (size_t)__builtin_ctz(at);
        store(out + n, load(s + from));
        n += k - from;
        from = k + 1;
        if (insert) {
            out[n++] = 3;
            from = k;
        }
    }
    store(out + n, load(s + from));
    return n + 16 - from;
}

static inline size_t keep_16(const uint8_t *s, unsigned drop, uint8_t *out)
{
    return recode_16(s, drop, 0, out);
}

static void write_unescaped(const uint8_t *s, size_t len, uint8_t *out, size_t kept)
{
    const __m128i three = _mm_set1_epi8(3);
    size_t i = 0, n = 0;
    for (; i < 2 && i < len; i++)
        out[n++] = s[i];
    while (i + 64 <= len && n + 64 <= kept) {
        if (no_pair(s + i - 2)) {
            copy_64(out + n, s + i);
            i += 64;
            n += 64;
            continue;
        }
        for (size_t to = i + 32; i < to; i += 16)
            n += keep_16(s + i, bits(_mm_and_si128(pairs(s + i - 2), _mm_cmpeq_epi8(load(s + i), three))),
                         out + n);
    }
    for (; i < len; i++)
        if (s[i] != 3 || s[i - 1] != 0 || s[i - 2] != 0)
            out[n++] = s[i];
}

#include "one_pass.h"

/* Escaping. */

/* Of 16 places those before which 03 stands: where 00 00 comes before and a byte up to 3 is there,
   but in a row of such places only every second one. `last` says that the place before was one. */
static inline unsigned insertions(const uint8_t *s, unsigned last)
{
    unsigned here = bits(_mm_and_si128(pairs(s - 2), up_to_three(load(s)))) & ~last;
    unsigned begins = here & ~(here << 1);
    unsigned from_even = here & ~(here + (begins & 0x5555));
    return (from_even & 0x5555) | (here & ~from_even & 0xAAAA);
}

/* Whether 03 stands before one place. */
static inline unsigned insertion(const uint8_t *s, unsigned last)
{
    return !last && s[-2] == 0 && s[-1] == 0 && s[0] <= 3;
}

static size_t length_escaped(const uint8_t *obu, size_t len)
{
    size_t n = len, i = 2;
    unsigned last = 0;
    while (i + 16 <= len) {
        size_t to = i + 64 <= len ? i + 64 : len;
        if (to == i + 64 && no_pair(obu + i - 2)) {
            i = to;
            last = 0;
            continue;
        }
        for (; i + 16 <= to; i += 16) {
            unsigned here = insertions(obu + i, last);
            n += (size_t)__builtin_popcount(here);
            last = here >> 15;
        }
    }
    for (; i < len; i++) {
        last = insertion(obu + i, last);
        n += last;
    }
    return n;
}

static inline size_t insert_16(const uint8_t *s, unsigned here, uint8_t *out)
{
    return recode_16(s, here, 1, out);
}

static size_t escape_into(const uint8_t *obu, size_t len, uint8_t *out)
{
    size_t n = 0, i = 0;
    unsigned last = 0;
    for (; i < 2 && i < len; i++)
        out[n++] = obu[i];
    while (i + 32 <= len) {
        size_t to = i + 64 <= len ? i + 64 : i + 16;
        if (to == i + 64 && no_pair(obu + i - 2)) {
            copy_64(out + n, obu + i);
            i = to;
            n += 64;
            last = 0;
            continue;
        }
        for (; i < to && i + 32 <= len; i += 16) {
            unsigned here = insertions(obu + i, last);
            n += insert_16(obu + i, here, out + n);
            last = here >> 15;
        }
    }
    for (; i < len; i++) {
        last = insertion(obu + i, last);
        if (last)
            out[n++] = 3;
        out[n++] = obu[i];
    }
    return n;
}

/* The functions. */

plain_answer sse2_escape(const uint8_t *obu, size_t len, uint8_t *out, size_t room)
{
    plain_answer a = {0, 0, 0, 0, 0};
    size_t need;
    if (len > MAX_OBU_BYTES)
        return plain_refused(2, 0);
    need = length_escaped(obu, len);
    if (need > room)
        return plain_refused(8, 0);
    a.count = need;
    if (need == len)
        copy(out, obu, len);
    else
        escape_into(obu, len, out);
    return a;
}

plain_answer sse2_unescape(const uint8_t *payload, size_t len, uint8_t *out, size_t room)
{
    plain_answer a = {0, 0, 0, 0, 0};
    if (len > MAX_PAYLOAD_BYTES || payload_end(payload, 0, len, &a.dropped) != len || len - a.dropped > room)
        return plain_unescape(payload, len, out, room);
    a.count = len - a.dropped;
    if (a.dropped == 0)
        copy(out, payload, len);
    else
        write_unescaped(payload, len, out, a.count);
    return a;
}

plain_answer sse2_write_unit(const uint8_t *obus, size_t len, const size_t *lengths, size_t n,
                             uint8_t *out, size_t room)
{
    return write_unit(obus, len, lengths, n, out, room, length_escaped, escape_into);
}

ONE_PASS_FUNCTIONS(sse2)

static int unit_taken(const uint8_t *unit, size_t len)
{
    return check_in_one_pass(unit, len).number == 0;
}

packets_answer sse2_check_segment(const packets_job *job)
{
    return packets_loop(job, copy, unit_taken);
}
