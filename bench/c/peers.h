/* The peers that are not plain loops; the answers are those of plain.h. */

#ifndef PEERS_H
#define PEERS_H

#include <string.h>

#include "judge.h"

recoding_function lavc_unescape, sse2_escape, sse2_unescape;
writing_function sse2_write_unit;
reading_function lavc_read_unit, sse2_read_unit;
checking_function lavc_check_unit, sse2_check_unit;
summing_function lavc_crc32;

/* A segment, the PID of its AV1, which the packet loops are told, and room for units, lengths and
   times. */
typedef struct {
    const uint8_t *segment;
    size_t len;
    size_t pid;
    uint8_t *out;
    size_t room;
    size_t *lengths;
    uint64_t *times;
    size_t units;
} packets_job;

/* What a packet loop gives; `number` is not 0 where something is wrong. */
typedef struct {
    uint64_t number, units, bytes, null_packets, av1;
} packets_answer;

packets_answer packets_read(const packets_job *job);
packets_answer sse2_check_segment(const packets_job *job);

/* Whether the first of `left` bytes, 00 00 00, are the last zeros before a start code. */
static inline int zeros_before_start_code(const uint8_t *p, size_t left)
{
    return p[2] == 0 && ((left > 3 && start_code_at(p + 1)) || (left > 4 && start_code_at(p + 2)));
}

#endif
