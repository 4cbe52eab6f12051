/* The refusals in words, for the examples. */
#ifndef WORDS_H
#define WORDS_H

#include "av1ts.h"

static const char *words(uint64_t number) {
    switch (number) {
    case AV1TS_REFUSED_OBU_COUNT: return "no OBU, or more than 64";
    case AV1TS_REFUSED_LENGTH: return "too long, or lengths that don't add up";
    case AV1TS_REFUSED_EMPTY_OBU: return "an OBU of no bytes";
    case AV1TS_REFUSED_OBU_HEADER: return "an OBU header is wrong";
    case AV1TS_REFUSED_OBU_SIZE: return "an OBU's size is wrong";
    case AV1TS_REFUSED_TILE_LIST: return "a tile list";
    case AV1TS_REFUSED_ORDER: return "the order of the OBUs is broken";
    case AV1TS_REFUSED_NO_ROOM: return "an output is too short";
    case AV1TS_REFUSED_NO_START_CODE: return "no start code at the head";
    case AV1TS_REFUSED_ILLEGAL_PAYLOAD: return "bytes that no payload may have";
    case AV1TS_REFUSED_DESCRIPTOR: return "no AV1 video descriptor";
    case AV1TS_REFUSED_DESCRIPTOR_FIELD: return "a field past its width";
    case AV1TS_REFUSED_OBU_CONTENT: return "a header without content, or of a reduced still picture";
    case AV1TS_REFUSED_SEGMENT_LENGTH: return "no bytes, not whole packets of 188, or over 65,535 of them";
    case AV1TS_REFUSED_SYNC_BYTE: return "a packet does not begin with 47";
    case AV1TS_REFUSED_TRANSPORT_ERROR: return "a packet is marked as damaged";
    case AV1TS_REFUSED_PACKET_HEADER: return "a packet's header or adaptation field is wrong";
    case AV1TS_REFUSED_CONTINUITY_COUNTER: return "a packet is missing, or comes twice";
    case AV1TS_REFUSED_PAT: return "the PAT is wrong";
    case AV1TS_REFUSED_PMT: return "the PMT is wrong";
    case AV1TS_REFUSED_ENTRY_COUNT: return "more than 12 streams in the PMT";
    case AV1TS_REFUSED_AV1_ENTRY: return "not exactly one AV1 stream in the PMT, or not as it should be";
    case AV1TS_REFUSED_PES_HEADER: return "a PES header is wrong, or is missing";
    case AV1TS_REFUSED_NO_TIMES: return "a unit without times";
    case AV1TS_REFUSED_NO_PCR: return "AV1 before any PCR";
    case AV1TS_REFUSED_PES_LENGTH: return "a PES is longer or shorter than it says";
    case AV1TS_REFUSED_NO_TABLES: return "no PAT or no PMT";
    case AV1TS_REFUSED_UNIT_COUNT: return "more than 1,024 units";
    default: return "see docs/REFUSALS.md";
    }
}

#endif
