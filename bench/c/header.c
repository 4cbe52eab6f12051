/* Reading the header and the adaptation field of packets. */

#include "plain.h"

#define NULL_PID 0x1FFF

static uint64_t pid_of(const uint8_t *p)
{
    return (uint64_t)(p[1] & 0x1F) << 8 | p[2];
}

/* The flags of the adaptation field; where there is no such byte, none is set. */
static uint8_t adaptation_flags(const uint8_t *p)
{
    return p[3] & 0x20 && p[4] > 0 ? p[5] : 0;
}

static unsigned pcr_extension(const uint8_t *p)
{
    return (unsigned)(p[10] & 1) << 8 | p[11];
}

static uint64_t pcr_of(const uint8_t *p)
{
    uint64_t base = (uint64_t)p[6] << 25 | (uint64_t)p[7] << 17 | (uint64_t)p[8] << 9
                    | (uint64_t)p[9] << 1 | p[10] >> 7;
    return base * 300 + pcr_extension(p);
}

/* 23, on a PID that is not the null packets'. */
static int fields_wrong(const uint8_t *p)
{
    unsigned control = p[3] >> 4 & 3;
    if (p[3] >> 6 != 0 || control == 0)
        return 1;
    if ((control == 2 && p[4] != 183) || (control == 3 && p[4] > 182))
        return 1;
    return adaptation_flags(p) & 0x10 && (p[4] < 7 || pcr_extension(p) > 299);
}

/* Tries 21, 22, 23. */
static uint64_t try_header(const uint8_t *p)
{
    if (p[0] != 0x47)
        return 21;
    if (p[1] & 0x80)
        return 22;
    return pid_of(p) != NULL_PID && fields_wrong(p) ? 23 : 0;
}

plain_packet_header plain_header(const uint8_t packet[PACKET_BYTES])
{
    plain_packet_header h = {0};
    const uint8_t *p = packet;
    uint8_t flags;
    h.number = try_header(p);
    if (h.number != 0)
        return h;
    flags = adaptation_flags(p);
    h.pid = pid_of(p);
    h.start = p[1] >> 6 & 1;
    h.counter = p[3] & 15;
    h.discontinuity = flags >> 7;
    h.pcr_present = h.pid != NULL_PID && flags & 0x10;
    h.pcr = h.pcr_present ? pcr_of(p) : 0;
    h.has_payload = p[3] >> 4 & 1;
    if (h.has_payload)
        h.payload = p[3] & 0x20 ? 5 + (uint64_t)p[4] : 4;
    return h;
}

uint64_t plain_headers(const uint8_t *segment, size_t len)
{
    uint64_t n = 0;
    for (; len >= PACKET_BYTES; len -= PACKET_BYTES, segment += PACKET_BYTES)
        n += try_header(segment) == 0;
    return n;
}
