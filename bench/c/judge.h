/* The rules on OBUs and their order, which every peer judges by. */

#ifndef JUDGE_H
#define JUDGE_H

#include "plain.h"

/* An OBU's header, extension byte, size and first content byte take at most 11 bytes; escaped, at
   most 16. */
#define MAX_JUDGED_BYTES 11
#define MAX_ESCAPED_JUDGED_BYTES 16

enum { SEQUENCE_HEADER = 1, DELIMITER, FRAME_HEADER, TILE_GROUP, METADATA, FRAME,
       REDUNDANT_FRAME_HEADER, TILE_LIST, PADDING = 15, SHOWN_AGAIN };

/* Reads a leb128 and gives its width, or 0 where it is bad. */
static inline size_t read_leb128(const uint8_t *bytes, size_t len, uint64_t *value)
{
    *value = 0;
    for (size_t i = 0; i < 8 && i < len; i++) {
        *value |= (uint64_t)(bytes[i] & 0x7F) << (7 * i);
        if (bytes[i] < 0x80)
            return *value <= 0xFFFFFFFF ? i + 1 : 0;
    }
    return 0;
}

static inline uint8_t obu_type(uint8_t header)
{
    return header >> 3 & 15;
}

/* Tries 4, 5, 6, 42 on an OBU of `len` bytes, not 0, of which the first are in `head`; also gives
   its kind: its type, or that it shows a frame again. */
static inline uint64_t try_obu(const uint8_t *head, size_t len, uint8_t *kind)
{
    size_t held = len < MAX_JUDGED_BYTES ? len : MAX_JUDGED_BYTES;
    size_t at = head[0] & 4 ? 2 : 1;
    if (head[0] & 0x80 || at > len)
        return 4;
    if (head[0] & 2) {
        uint64_t size;
        size_t width = read_leb128(head + at, held - at, &size);
        if (width == 0 || size != len - at - width)
            return 5;
        at += width;
    }
    *kind = obu_type(head[0]);
    if (*kind == DELIMITER && at != len)
        return 5;
    if (*kind == TILE_LIST)
        return 6;
    if ((*kind == SEQUENCE_HEADER || *kind == FRAME_HEADER) && at == len)
        return 42;
    if (*kind == SEQUENCE_HEADER && head[at] & 8)
        return 42;
    if (*kind == FRAME_HEADER && head[at] & 0x80)
        *kind = SHOWN_AGAIN;
    return 0;
}

/* The place where the order of kinds breaks, or `n + 1`. */
static inline size_t order_breaks(const uint8_t *kinds, size_t n)
{
    size_t i = 0;
    if (i < n && kinds[i] == DELIMITER)
        i++;
    while (i < n && (kinds[i] <= SEQUENCE_HEADER || kinds[i] == METADATA ||
                     (kinds[i] > TILE_LIST && kinds[i] <= PADDING)))
        i++;
    if (i < n && (kinds[i] == FRAME || kinds[i] == SHOWN_AGAIN))
        return i + 1 == n ? n + 1 : i + 1;
    if (i == n || kinds[i] != FRAME_HEADER)
        return i;
    for (i++; i < n; i++)
        if (kinds[i] != TILE_GROUP && kinds[i] != REDUNDANT_FRAME_HEADER && kinds[i] != PADDING)
            return i;
    return kinds[n - 1] == TILE_GROUP ? n + 1 : n;
}

static inline int start_code_at(const uint8_t *bytes)
{
    return bytes[0] == 0 && bytes[1] == 0 && bytes[2] == 1;
}

/* A payload: where it begins in its unit, how long it is, and the bytes to drop. */
typedef struct {
    size_t from, len, dropped;
} payload_part;

/* Tries 4, 5, 6, 42 on the OBU in a legal payload, of which the front is unescaped. */
static inline uint64_t try_escaped(const uint8_t *payload, const payload_part *part, uint8_t *kind)
{
    uint8_t head[MAX_ESCAPED_JUDGED_BYTES];
    plain_write_unescaped(payload, part->len < sizeof head ? part->len : sizeof head, head);
    return try_obu(head, part->len - part->dropped, kind);
}

/* The figures of a unit's payloads. */
static inline plain_answer figures_of(const payload_part *parts, size_t n)
{
    plain_answer a = {0, 0, n, 0, 0};
    for (size_t k = 0; k < n; k++) {
        a.bytes += parts[k].len - parts[k].dropped;
        a.dropped += parts[k].dropped;
    }
    return a;
}

/* Where the OBUs of a unit go, and their lengths. */
typedef struct {
    uint8_t *out;
    size_t room;
    size_t *lengths;
    size_t n;
} unit_outputs;

typedef void (*write_part)(const uint8_t *payload, const payload_part *part, uint8_t *out);

/* Reads a unit whose check gave `a` and these payloads. */
static inline plain_answer read_parts(const uint8_t *unit, const payload_part *parts, plain_answer a,
                                      unit_outputs to, write_part write)
{
    if (a.number != 0)
        return a;
    if (a.bytes > to.room || a.count > to.n)
        return plain_refused(8, 0);
    for (size_t k = 0; k < a.count; k++) {
        write(unit + parts[k].from, &parts[k], to.out);
        to.lengths[k] = parts[k].len - parts[k].dropped;
        to.out += to.lengths[k];
    }
    return a;
}

#endif
