/* A packet loop in the manner of biTStream: macros for the fields, the counter followed, payloads
   copied. Written anew from this description. How bytes are copied and whether a unit is checked is
   left to who calls it. */

#ifndef PACKETS_H
#define PACKETS_H

#include "peers.h"

#define TS_NULL_PID 0x1FFF
#define TS_SYNC(p) ((p)[0] == 0x47)
#define TS_ERROR(p) ((p)[1] & 0x80)
#define TS_START(p) ((p)[1] & 0x40)
#define TS_PID(p) ((size_t)((p)[1] & 0x1F) << 8 | (p)[2])
#define TS_HAS_FIELD(p) ((p)[3] & 0x20)
#define TS_HAS_PAYLOAD(p) ((p)[3] & 0x10)
#define TS_COUNTER(p) ((p)[3] & 15u)
#define TS_HEADER(p) (TS_HAS_FIELD(p) ? 5 + (size_t)(p)[4] : 4)

#define PES_HEADER_BYTES 9
#define PES_VALID(p) ((p)[0] == 0 && (p)[1] == 0 && (p)[2] == 1)
#define PES_HEADER(p) (PES_HEADER_BYTES + (size_t)(p)[8])
#define PES_HAS_PTS(p) ((p)[7] & 0x80)
#define PES_HAS_DTS(p) ((p)[7] & 0x40)
#define PES_TIME(p)                                                                                \
    ((uint64_t)((p)[0] >> 1 & 7) << 30 | (uint64_t)(p)[1] << 22 | (uint64_t)((p)[2] >> 1) << 15    \
     | (uint64_t)(p)[3] << 7 | (p)[4] >> 1)

typedef void (*packets_copy)(uint8_t *out, const uint8_t *bytes, size_t len);
typedef int (*packets_check)(const uint8_t *unit, size_t len);

/* The unit that is open ends here: its length is what was copied since `begun`. */
static inline int packets_close(const packets_job *job, const packets_answer *a, size_t begun,
                                packets_check check)
{
    if (a->units == 0)
        return 1;
    job->lengths[a->units - 1] = a->bytes - begun;
    return check(job->out + begun, a->bytes - begun);
}

/* Reads a PES header of at most `left` bytes and notes its times; gives its length, or 0. */
static inline size_t packets_open(const packets_job *job, const uint8_t *pes, size_t left,
                                  packets_answer *a)
{
    size_t least = PES_HEADER_BYTES + (left > 7 && PES_HAS_DTS(pes) ? 10 : 5);
    if (left < least || !PES_VALID(pes) || !PES_HAS_PTS(pes) || PES_HEADER(pes) > left
        || PES_HEADER(pes) < least || a->units == job->units)
        return 0;
    job->times[2 * a->units] = PES_TIME(pes + 9);
    job->times[2 * a->units + 1] = PES_TIME(pes + (PES_HAS_DTS(pes) ? 14 : 9));
    a->units++;
    return PES_HEADER(pes);
}

/* Takes the payload of a packet of the AV1 PID; gives whether it is right. */
static inline int packets_take(const packets_job *job, const uint8_t *p, packets_answer *a,
                               size_t *begun, packets_copy copy, packets_check check)
{
    size_t at = TS_HEADER(p);
    if (at >= PACKET_BYTES)
        return 0;
    if (TS_START(p)) {
        size_t header;
        if (!packets_close(job, a, *begun, check))
            return 0;
        *begun = a->bytes;
        header = packets_open(job, p + at, PACKET_BYTES - at, a);
        if (header == 0)
            return 0;
        at += header;
    }
    if (a->units == 0 || PACKET_BYTES - at > job->room - a->bytes)
        return 0;
    copy(job->out + a->bytes, p + at, PACKET_BYTES - at);
    a->bytes += PACKET_BYTES - at;
    return 1;
}

static inline packets_answer packets_loop(const packets_job *job, packets_copy copy,
                                          packets_check check)
{
    packets_answer a = {1, 0, 0, 0, 0};
    unsigned expected = 16;
    size_t begun = 0;
    const uint8_t *p = job->segment, *end = p + job->len / PACKET_BYTES * PACKET_BYTES;
    for (; p < end; p += PACKET_BYTES) {
        size_t pid = TS_PID(p);
        if (!TS_SYNC(p) || TS_ERROR(p))
            return a;
        a.null_packets += pid == TS_NULL_PID;
        if (pid != job->pid)
            continue;
        a.av1++;
        if (!TS_HAS_PAYLOAD(p))
            continue;
        if (expected < 16 && TS_COUNTER(p) != expected)
            return a;
        expected = (TS_COUNTER(p) + 1) & 15;
        if (!packets_take(job, p, &a, &begun, copy, check))
            return a;
    }
    a.number = !packets_close(job, &a, begun, check);
    return a;
}

#endif
