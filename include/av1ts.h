/* AV1 in MPEG-2 transport streams. The interface of libav1ts.a.
 *
 * Every function takes every input and returns. It reads and writes only inside the buffers it is lent, which must not overlap. A buffer is a
 * pointer and a length; a null pointer with length 0 is fine for every one of them, input or output: where the length is 0 the pointer is not used.
 *
 * number 0 says that nothing was refused. Success writes from the front of each output and the rest of it keeps its old bytes. Otherwise number and place
 * say what was refused and where, every other field is 0 and every output keeps its old bytes. Two kinds differ: a refused av1ts_walk_step has the
 * place handed in as next_at, and a refused check of a segment leaves zeros throughout its three outputs.
 */
#ifndef AV1TS_H
#define AV1TS_H

#include <stddef.h>
#include <stdint.h>

/* The version of this interface. It goes up by one where a function changes what it takes or a struct grows at its end: a program that was built with
 * another version of this header is to be built anew. CHANGELOG.md says what changed. */
#define AV1TS_VERSION 4

/* How it grows. A struct grows at its end and nowhere else: a field that is there keeps its name, its place and its meaning. A number keeps its meaning; new
 * ones come with new functions, or where CHANGELOG.md says so, so a caller handles a number that it does not know as a refusal.
 * A newer library and an older program: answers are returned by value, so the two must agree on their size. The shared library (libav1ts.so.0) therefore has its
 * version at every symbol, as in av1ts_escape@AV1TS_2, and the loader stops a program that was built with another version before its first line runs ("version
 * `AV1TS_2' not found"): build it anew with the library's own header. The static library is handed out with its header, and a program has both from one place. */

/* The refusals: what number says where it is not 0. docs/REFUSALS.md has each in words, with an example and what to do about it. */
enum {
    AV1TS_NOT_REFUSED = 0,

    /* units and descriptors */
    AV1TS_REFUSED_OBU_COUNT = 1,         /* no OBU to write, or more than 64 */
    AV1TS_REFUSED_LENGTH = 2,            /* a length over its limit, or lengths that don't add up */
    AV1TS_REFUSED_EMPTY_OBU = 3,         /* an OBU of no bytes */
    AV1TS_REFUSED_OBU_HEADER = 4,        /* forbidden bit, or extension byte missing */
    AV1TS_REFUSED_OBU_SIZE = 5,          /* bad leb128, size wrong, or a delimiter with content */
    AV1TS_REFUSED_TILE_LIST = 6,         /* a tile list */
    AV1TS_REFUSED_ORDER = 7,             /* order of the OBUs broken */
    AV1TS_REFUSED_NO_ROOM = 8,           /* an output is too short */
    AV1TS_REFUSED_NO_START_CODE = 9,     /* no start code at the head */
    AV1TS_REFUSED_ILLEGAL_PAYLOAD = 10,  /* an illegal payload */
    AV1TS_REFUSED_DESCRIPTOR = 40,       /* no AV1 video descriptor */
    AV1TS_REFUSED_DESCRIPTOR_FIELD = 41, /* a descriptor's field past its width */
    AV1TS_REFUSED_OBU_CONTENT = 42,      /* a header without content, or a reduced still picture */

    /* segments */
    AV1TS_REFUSED_SEGMENT_LENGTH = 20,     /* no bytes, not whole packets, or too many */
    AV1TS_REFUSED_SYNC_BYTE = 21,          /* first byte of a packet not 0x47 */
    AV1TS_REFUSED_TRANSPORT_ERROR = 22,    /* transport_error_indicator */
    AV1TS_REFUSED_PACKET_HEADER = 23,      /* packet header or adaptation field wrong */
    AV1TS_REFUSED_CONTINUITY_COUNTER = 24, /* counter wrong */
    AV1TS_REFUSED_PAT = 25,                /* PAT wrong */
    AV1TS_REFUSED_PMT = 26,                /* PMT wrong */
    AV1TS_REFUSED_ENTRY_COUNT = 27,        /* more than 12 entries in the PMT */
    AV1TS_REFUSED_AV1_ENTRY = 28,          /* not exactly one AV1 entry, or it is against the rule */
    AV1TS_REFUSED_PES_HEADER = 29,         /* PES header wrong, or payload before any PES start */
    AV1TS_REFUSED_NO_TIMES = 30,           /* PTS_DTS_flags 00 */
    AV1TS_REFUSED_NO_PCR = 31,             /* payload with no PCR yet */
    AV1TS_REFUSED_PES_LENGTH = 32,         /* PES length wrong */
    AV1TS_REFUSED_NO_TABLES = 33,          /* no PAT or no PMT */
    AV1TS_REFUSED_UNIT_COUNT = 34,         /* a 1,025th unit */
    AV1TS_REFUSED_CUT_SHORT = 43,          /* in field of av1ts_segment: a sequence header is cut short */
    AV1TS_REFUSED_EDITION = 44,            /* an unknown edition */
    AV1TS_REFUSED_SHEET = 45,              /* no sheet */

    /* the transport buffer */
    AV1TS_REFUSED_ARRIVAL_TIME = 46,  /* a time goes back, or jumps over a second */
    AV1TS_REFUSED_REPLAY_BOUNDS = 47, /* rate, byte count, arrival count or state out of bounds */

    /* mastering figures */
    AV1TS_REFUSED_MASTERING_FORM = 48,  /* content not of the form of metadata_hdr_mdcv */
    AV1TS_REFUSED_MASTERING_BOUNDS = 49, /* a figure past its bound */
    AV1TS_REFUSED_QUEUE_FULL = 50,      /* eight units are queued */
    AV1TS_REFUSED_QUEUED_UNIT = 51,     /* a unit that reading refuses, or a time above 33 bits */
    AV1TS_REFUSED_CHANNEL = 52,         /* descriptor, PID, program number, counter or PCR not allowed */
    AV1TS_REFUSED_PACKETS_TO_SEND = 53  /* more than 65,535 packets to send */
};

#ifdef __cplusplus
extern "C" {
#endif

typedef struct {
    uint64_t number, place, count, bytes, dropped;
} av1ts_answer;

/* The escaped form of one OBU. count: the bytes written.
 * Refuses: 2 an OBU of more than 1,048,576 bytes; 8 the output is too short. */
av1ts_answer av1ts_escape(const uint8_t *obu, size_t obu_len, uint8_t *out, size_t out_len);

/* The OBU of one payload. count: the bytes written; dropped: the bytes dropped.
 * Refuses: 2 a payload of more than 1,572,864 bytes; 10 an illegal payload, at the place where the first forbidden sequence begins; 8 the output
 * is too short. */
av1ts_answer av1ts_unescape(const uint8_t *payload, size_t payload_len, uint8_t *out, size_t out_len);

/* The carried unit of OBUs that are lent back to back with their lengths. count: the bytes written.
 * Refuses: 1 no OBU, or more than 64; 2 more than 1,048,576 bytes, or lengths that don't add up to the bytes; at the OBU's index, 3 an OBU of no bytes, 4
 * forbidden bit or extension byte missing, 5 bad leb128, size wrong or a delimiter with content, 6 tile list, 42 a sequence header or frame header without
 * content, or a sequence header with reduced_still_picture_header; 7 order broken, at the index that breaks it or at the OBU count if the list ends too soon
 * (a frame header with show_existing_frame is the whole frame, and must be the last OBU); 8 the output is too short, which is said exactly where it is too
 * short for every string that reads as these OBUs: the one written is the shortest. */
av1ts_answer av1ts_write_unit(const uint8_t *obus, size_t obus_len, const size_t *lengths, size_t lengths_len, uint8_t *out, size_t out_len);

/* The OBUs of a carried unit, back to back, and their lengths. count: the OBUs; bytes: the bytes written; dropped: the bytes dropped in all.
 * Refuses: 2 more than 1,573,056 bytes; 9 no start code at the head; 1 more than 64 OBUs; at the OBU's index 3, 10 an illegal payload, 4, 5, 6, 42; 2 OBUs of
 * more than 1,048,576 bytes together; 7; 8 an output is too short (bytes or lengths). A refusal leaves both outputs. */
av1ts_answer av1ts_read_unit(const uint8_t *unit, size_t unit_len, uint8_t *out, size_t out_len, size_t *lengths, size_t lengths_len);

/* The same, with how many bytes the size of each OBU takes from the front of widths, 0 where an OBU has no size; a longer leb128 than needed counts with its
 * full width. Refuses as av1ts_read_unit, and 8 where widths is too short. A refusal leaves all three outputs. */
av1ts_answer av1ts_read_unit_widths(const uint8_t *unit, size_t unit_len, uint8_t *out, size_t out_len, size_t *lengths, size_t lengths_len, size_t *widths,
                                    size_t widths_len);

/* The same verdict and figures with no output: all refusals of reading but 8. */
av1ts_answer av1ts_check_unit(const uint8_t *unit, size_t unit_len);

/* What salvaging a unit gave. bytes: the bytes written; tsobus: the tsOBUs of the unit; kept: how many of them were kept; leading: the bytes dropped before the
 * first start code (all of them, where there is none). accepted 1: av1ts_check_unit accepts what was written; 0: it refuses it. */
typedef struct {
    uint64_t number, place, bytes, tsobus, kept, leading, accepted;
} av1ts_salvaged;

/* The good OBUs of a damaged unit, in order, each in the form that av1ts_write_unit gives it, from the front of out; and from the front of marks a byte for each
 * tsOBU of the unit: 0 it was kept, 1 it was kept and a closing 03 removed, otherwise the number it was dropped with, the first of 3, 10, 4, 5, 6, 42, and 2 for an
 * OBU of more than 1,048,576 bytes. What is written is never longer than the unit; of an accepted unit nothing is dropped.
 * Refuses: 2 more than 1,573,056 bytes; 1 more than 64 tsOBUs; 8 an output is too short (bytes or marks). A refusal leaves both outputs. */
av1ts_salvaged av1ts_salvage(const uint8_t *unit, size_t unit_len, uint8_t *out, size_t out_len, uint8_t *marks, size_t marks_len);

/* A walk over a carried unit hands out one payload at a time. Its state is a place in the unit: it starts at 0, and each step says the place of the
 * next one. */
typedef struct {
    uint64_t number, place, end, start, length, next_at;
} av1ts_step;

/* The check at the start alone. next_at: the place of the first step, which is 0. Refuses: 9 no start code at the head. The step at 0 checks this too,
 * so a walk may begin with that. */
av1ts_step av1ts_walk_start(const uint8_t *unit, size_t unit_len);

/* The step at a place: a payload is the length bytes from start on, and next_at the place of the next step; or end is 1. At the end, and where a step
 * refused, next_at is the place handed in: the walk stays. Refuses: 9 (place 0) no start code at the head, also of no bytes at all; at the OBU's index,
 * which is the number of payloads that the walk has handed out, 3 an OBU of no bytes, 10 an illegal payload. A place that no walk over these bytes
 * reaches has its answer too: from the unit's length on the end; where no start code stands 9, at place 0; where one stands the step at it. */
av1ts_step av1ts_walk_step(const uint8_t *unit, size_t unit_len, size_t at);

/* What an AV1 video descriptor says. field: the ten fields, in descriptor order: seq_profile, seq_level_idx_0, seq_tier_0, high_bitdepth, twelve_bit, monochrome,
 * chroma_subsampling_x, chroma_subsampling_y, chroma_sample_position, hdr_wcg_idc. delay_present 1: delay is initial_presentation_delay_minus_one. */
typedef struct {
    uint64_t number, place, field[10], delay_present, delay;
} av1ts_descriptor;

/* The fields of a video descriptor, which is lent from its tag on.
 * Refuses: 40 not six bytes, tag or length wrong, marker or version not 1, the reserved bit set, or the low four bits not zero where no delay is present. */
av1ts_descriptor av1ts_read_descriptor(const uint8_t *bytes, size_t bytes_len);

/* The six bytes of a video descriptor. field: ten bytes, in descriptor order. The delay is written as absent, with four zeros. count: the bytes written.
 * Refuses: 41 a field past its width; 8 the output is too short. */
av1ts_answer av1ts_write_descriptor(const uint8_t field[10], uint8_t *out, size_t out_len);

/* count: the bytes written. dropped_delay 1: the descriptor had a delay, which is not written; 0: it had none, and the bytes written are those lent. */
typedef struct {
    uint64_t number, place, count, dropped_delay;
} av1ts_rewritten;

/* A video descriptor read, as by av1ts_read_descriptor, and its fields written, as by av1ts_write_descriptor.
 * Refuses: 40 as reading does; 8 the output is too short. */
av1ts_rewritten av1ts_rewrite_descriptor(const uint8_t *bytes, size_t bytes_len, uint8_t *out, size_t out_len);

/* What an accepted segment has: its program number, the PID of its AV1 stream, its access units, and its packets in five classes. compared 1: a sequence header
 * disagrees with the video descriptor or is cut short. unit is then the unit of the first such header in stream order, from 0, and field its first differing field
 * in descriptor order, from 0 seq_profile to 8 chroma_sample_position; or 43 (AV1TS_REFUSED_CUT_SHORT) where that header ends before chroma_sample_position has been
 * read or passed by, whatever differs before. compared 0, with unit and field 0: every sequence header agrees, or the AV1 entry has no video descriptor, or the
 * edition is draft. The comparison refuses nothing and moves nothing else of the answer. */
typedef struct {
    uint64_t number, place, program, pid, units, null_packets, section, av1, other_listed, unlisted, compared, unit, field;
} av1ts_segment;

/* The check of a segment of whole packets, and its AV1 access units: carried units back to back from the front of out, their lengths from the front of lengths, PTS
 * and DTS of each in turn from the front of times (ticks of 90 kHz); the rest of each output is left. A refused segment leaves zeros throughout the three outputs.
 * Refuses, at the packet's index: 20 (place 0) no bytes, not a multiple of 188, or over 65,535 packets; 21 first byte not 0x47; 22 transport_error_indicator; 23
 * header or adaptation field wrong; 24 counter wrong (one copy of a packet passes); 25 PAT wrong; 26 PMT wrong; 27 more than 12 entries in the PMT; 28 not exactly one AV1 entry, or it is against
 * the rule; 29 PES header wrong, or payload before any PES start; 30 PTS_DTS_flags 00; 31 payload with no PCR yet; 34 a 1,025th unit; 8 an output is too short; at
 * the index of the packet that began the PES, 32 PES length wrong and the refusals of reading its unit; 33 (place: the packet count) no PAT or no PMT. */
av1ts_segment av1ts_check_segment(const uint8_t *segment, size_t segment_len, uint8_t *out, size_t out_len, size_t *lengths, size_t lengths_len, uint64_t *times,
                                  size_t times_len);

/* The same in an edition: 0 current, as av1ts_check_segment checks, or 1 draft, for recordings made to the draft of 2018. Under draft the registration is 'AV1 '
 * (41 56 31 20) in place of 'AV01', a descriptor of tag 0x80 is not looked at, and a PES may have PTS_DTS_flags 00, with any header length: both times of its unit
 * are then 8,589,934,592, which no time of 33 bits equals.
 * Refuses: 44 (place 0) an edition that is neither 0 nor 1, before anything else; then as av1ts_check_segment does, under draft never by 30. Every refusal leaves
 * zeros throughout the three outputs. */
av1ts_segment av1ts_check_segment_edition(uint64_t edition, const uint8_t *segment, size_t segment_len, uint8_t *out, size_t out_len, size_t *lengths,
                                          size_t lengths_len, uint64_t *times, size_t times_len);

/* The state of a replay of the transport buffer. fill and highest are in bits times 27,000,000. has_last 1: last is the time of the last arrival; 0: there was
 * none, and last is 0. arrivals: how many since the fresh state. has_above 1: above is the index, since the fresh state, of the first arrival after which the fill
 * was above 4,096 times 27,000,000; 0: there was none, and above is 0. The fresh state is all zeros. The report of a run is highest, has_above and above. */
typedef struct {
    uint64_t fill, highest, has_last, last, arrivals, has_above, above;
} av1ts_replay_state;

typedef struct {
    uint64_t number, place;
    av1ts_replay_state state;
} av1ts_replayed;

/* A run over arrivals from a state: their times in ticks of 27 MHz, their byte counts, and the drain rate in bits per second. state: the one that the run left,
 * which may be handed to the next run; a trace in two runs at one rate, nothing refused, leaves the state that it leaves in one.
 * Refuses: 47 (place 0) a rate of 0 or above 1,000,000,000, or times and byte counts unlike in number; at the arrival's index in this trace, 46 a time that goes
 * back or over 27,000,000 ticks since the last, 47 a byte count above 188 or an arrival past the 1,000,000th since the fresh state. A refusal leaves the state as
 * before that arrival. A state whose numbers contradict each other, as no run's do, is 47 at place 0, and is handed back: has_last or has_above neither 1 nor 0
 * with a 0 beside it; arrivals above 1,000,000; fill above highest; highest above arrivals times 40,608,000,000; a last time without arrivals or arrivals without
 * one; above not below arrivals, or not there exactly where highest is above 4,096 times 27,000,000. */
av1ts_replayed av1ts_replay(av1ts_replay_state state, uint64_t rate, const uint64_t *times, size_t times_len, const uint64_t *counts, size_t counts_len);

/* The mastering figures of metadata_hdr_mdcv. figure: in the content's order: primary_chromaticity_x[0], _y[0], x[1], y[1], x[2], y[2] (red, green, blue),
 * white_point_chromaticity_x, _y, luminance_max, luminance_min; each is exactly the content's whole number divided by 65,536, luminance_max by 256, luminance_min by
 * 16,384. */
typedef struct {
    uint64_t number, place;
    double figure[10];
} av1ts_mastering;

/* The figures of the content of a metadata OBU of type 2.
 * Refuses: 48 content not of this form: a leb128 of value 2, of which longer forms are read, eight numbers of 16 bits and two of 32, one byte 80, and nothing
 * after it (then every figure is 0). */
av1ts_mastering av1ts_read_mastering(const uint8_t *content, size_t content_len);

/* The 26 bytes of such a content. value: ten whole numbers from ST 2086, in the same order: chromaticities in steps of 0.00002, luminances in steps of 0.0001. Each
 * is written as the content's nearest whole number, but 50,000 as 65,535. count: the bytes written.
 * Refuses: 49 a chromaticity past 50,000, or a luminance that rounds past 32 bits: a maximum above 167,772,159,980, a minimum above 2,621,439,999; 8 the output is
 * too short. */
av1ts_answer av1ts_write_mastering(const uint64_t value[10], uint8_t *out, size_t out_len);

/* The queue of the segment writer, for at most 8 units. Of each of the first `units` units, oldest first: its length in the store, its PTS and DTS in ticks of
 * 90 kHz, and its random-access mark, 0 or 1; what is behind them is 0. total: how many bytes they have together. The empty queue is all zeros. The units' bytes stand back to back from the front of a store
 * that the caller lends at each call and leaves alone between the calls. What is said below holds of a queue that these functions led to from the empty one, with
 * its store; any other gets an answer too, which says nothing. */
typedef struct {
    uint64_t units, length[8], pts[8], dts[8], marked[8], total;
} av1ts_queue;

/* empty 1: there was no unit to drop. queue: the queue then; in a refusal as it was. */
typedef struct {
    uint64_t number, place, empty;
    av1ts_queue queue;
} av1ts_queued;

/* Adds a unit behind the others, whose room in the store may be used again once they were dropped or sent. The rest of the store keeps its old bytes.
 * Refuses (place 0): 50 the queue is full; 51 the unit is not accepted by reading, or a time has more than 33 bits; 8 the store is too short. A refusal changes
 * neither queue nor store. */
av1ts_queued av1ts_queue_add(av1ts_queue queue, uint8_t *store, size_t store_len, const uint8_t *unit, size_t unit_len, uint64_t pts, uint64_t dts, uint64_t marked);

/* Drops the oldest unit; the bytes of the others move to the store's front, and the rest of the store keeps its old bytes. On an empty queue it says so and changes
 * nothing. */
av1ts_queued av1ts_queue_drop(av1ts_queue queue, uint8_t *store, size_t store_len);

/* The empty queue. */
av1ts_queued av1ts_queue_clear(av1ts_queue queue);

/* How many bytes are queued: total. */
uint64_t av1ts_queue_total(av1ts_queue queue);

/* What send is told of a segment: the program number, the map PID and the AV1 PID, which is the PCR PID, the PCR in ticks of 27 MHz, and the counter of the next
 * payload of PID 0, the map PID and the AV1 PID. */
typedef struct {
    uint64_t program, map_pid, av1_pid, pcr, pat_counter, map_counter, av1_counter;
} av1ts_channel;

/* bytes, packets: how many were written. next: the channel with the counters that follow; in a refusal as it was. queue: empty; in a refusal as it was. */
typedef struct {
    uint64_t number, place, bytes, packets;
    av1ts_channel next;
    av1ts_queue queue;
} av1ts_sent;

/* Writes a segment over the front of out: PAT, PMT with one AV1 entry (the registration, then the video descriptor as given), a PCR in a packet without payload,
 * then each queued unit as one PES in as few packets as possible. av1ts_check_segment accepts it and, with long enough outputs, gives the same units and times.
 * Refuses (place 0): 52 a descriptor that av1ts_read_descriptor refuses, a map PID outside 0x10 to 0x1FFE, an AV1 PID that is 0, above 0x1FFE or the map PID, a
 * program number of 0 or above 65,535, a counter above 15, or a PCR of 2^33 times 300 or more; 53 more than 65,535 packets; 8 the output is too short. A refusal
 * changes neither queue, counters nor output. */
av1ts_sent av1ts_queue_send(av1ts_queue queue, const uint8_t *store, size_t store_len, av1ts_channel channel, const uint8_t *descriptor, size_t descriptor_len, uint8_t *out, size_t out_len);

/* count: the bytes of the sheet. */
typedef struct {
    uint64_t number, place, count;
} av1ts_sheet_written;

/* The sheet beside a segment. The check is av1ts_check_segment_edition's, with its three outputs; of an accepted segment the sheet then stands over the front of
 * `sheet`: the streams of its map, its units, and their OBUs, in order. A payload's offset counts from its unit's first byte, so the first one's is 3: behind the
 * start code. av1ts_read_sheet gives back what was written, and the bytes of a unit stand in out from the sum of the lengths before it on.
 * No sheet has more than 2,130,136 bytes.
 * Refuses: what the check refuses, with its place and with zeros in the three outputs; then 8 (place 0) the sheet is too short, and the three outputs are as
 * accepted. In every refusal the sheet keeps its old bytes. */
av1ts_sheet_written av1ts_write_sheet(uint64_t edition, const uint8_t *segment, size_t segment_len, uint8_t *out, size_t out_len, size_t *lengths, size_t lengths_len,
                                      uint64_t *times, size_t times_len, uint8_t *sheet, size_t sheet_len);

/* The streams, units and OBUs of a sheet. */
typedef struct {
    uint64_t number, place, streams, units, obus;
} av1ts_sheet;

/* The sheet beside a segment: three sections, each after its count; all numbers, counts too, are 8 bytes big-endian. The numbers of its rows, as in the sheet, from
 * the front of each output: two of a stream (PID, stream_type); four of a unit (first packet, carried length, PTS, DTS); four of an OBU (unit, type, carried payload
 * offset in its unit, payload length). The rest of each output is left.
 * Refuses: 45 the length isn't the one the counts give; a count passes 12, 1,024 or 65,536; a PID passes 0x1FFE or a stream_type 255; first packets don't strictly
 * ascend or reach 65,535; a carried length passes 1,573,056; a time passes 8,589,934,592; a unit hasn't 1 to 64 OBUs; OBUs aren't in unit order or name no unit; a
 * type passes 15; payloads of a unit overlap, are empty, don't ascend or pass its length; then 8 an output is too short. */
av1ts_sheet av1ts_read_sheet(const uint8_t *sheet, size_t sheet_len, uint64_t *streams, size_t streams_len, uint64_t *units, size_t units_len, uint64_t *obus,
                             size_t obus_len);

/* found 1: the unit's first packet, carried length, PTS and DTS; 0: there is no unit of this number, and the other fields are 0. */
typedef struct {
    uint64_t number, place, found, first_packet, length, pts, dts;
} av1ts_sheet_found;

/* The unit of this number, from 0, of a sheet; there is none exactly from the unit count on. Refuses: 45 as av1ts_read_sheet does. */
av1ts_sheet_found av1ts_sheet_unit(const uint8_t *sheet, size_t sheet_len, uint64_t unit);

#ifdef __cplusplus
}
#endif

#endif
