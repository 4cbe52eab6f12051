/* Plain C loops over the rules of document 01, with the answers of libav1ts.a. */

#ifndef PLAIN_H
#define PLAIN_H

#include <stdbool.h>
#include <stddef.h>
#include <stdint.h>

#define MAX_OBUS 64
#define MAX_OBU_BYTES 1048576
#define MAX_PAYLOAD_BYTES 1572864
#define MAX_UNIT_BYTES 1573056
#define PACKET_BYTES 188
#define POLYNOMIAL 0x04C11DB7

typedef struct {
    uint64_t number, place, count, bytes, dropped;
} plain_answer;

/* The types of the functions that several peers have. */
typedef plain_answer recoding_function(const uint8_t *bytes, size_t len, uint8_t *out, size_t room);
typedef plain_answer writing_function(const uint8_t *obus, size_t len, const size_t *lengths, size_t n,
                                      uint8_t *out, size_t room);
typedef plain_answer reading_function(const uint8_t *unit, size_t len, uint8_t *out, size_t room,
                                      size_t *lengths, size_t n);
typedef plain_answer checking_function(const uint8_t *unit, size_t len);
typedef uint64_t summing_function(const uint8_t *bytes, size_t len);

recoding_function plain_escape, plain_unescape;
writing_function plain_write_unit;
reading_function plain_read_unit;
checking_function plain_check_unit;
summing_function plain_crc32;

size_t plain_copy_payloads(const uint8_t *segment, size_t len, unsigned pid, uint8_t *out,
                           size_t room);

size_t plain_copy_into_packets(const uint8_t *bytes, size_t len, uint8_t *out, size_t room);

/* The struct of measured_header: number 0 is success; in a refusal all else is 0. */
typedef struct {
    uint64_t number, place, pid;
    bool start;
    uint64_t counter;
    bool discontinuity, pcr_present;
    uint64_t pcr;
    bool has_payload;
    uint64_t payload;
} plain_packet_header;

plain_packet_header plain_header(const uint8_t packet[PACKET_BYTES]);

/* How many packets of a segment pass 21, 22, 23. */
summing_function plain_headers;

/* CPU time of this thread: time that other processes take does not count. */
uint64_t plain_cpu_nanoseconds(void);

/* The parts that payload.c and unit.c share. */

static inline plain_answer plain_refused(uint64_t number, uint64_t place)
{
    plain_answer a = {number, place, 0, 0, 0};
    return a;
}

/* The length of the OBU when escaped. */
size_t plain_escaped_length(const uint8_t *obu, size_t len);

/* Writes the escaped OBU and gives its length; the caller has found enough room. */
size_t plain_write_escaped(const uint8_t *obu, size_t len, uint8_t *out);

/* The place of the first forbidden sequence, or `len` and in `dropped` the bytes to drop. */
size_t plain_judge(const uint8_t *payload, size_t len, size_t *dropped);

/* Writes the unescaped payload and gives its length; the caller has found enough room. */
size_t plain_write_unescaped(const uint8_t *payload, size_t len, uint8_t *out);

#endif
