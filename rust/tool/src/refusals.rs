//! The refusal numbers in words.

/// What is said of a number.
pub struct Entry {
    pub number: u64,
    /// A few words, for the verdict's line.
    pub name: &'static str,
    /// The rule that was broken.
    pub rule: &'static str,
    /// What the place says; empty where it is 0.
    pub place: &'static str,
    /// What can be done about it.
    pub remedy: &'static str,
}

const fn entry(
    number: u64,
    name: &'static str,
    rule: &'static str,
    place: &'static str,
    remedy: &'static str,
) -> Entry {
    Entry {
        number,
        name,
        rule,
        place,
        remedy,
    }
}

const OBU: &str = "the OBU's index; in a segment the packet that began the PES";
const PACKET: &str = "the packet's index";
const BEGAN: &str = "the packet that began the PES";

/// Of units and descriptors.
const UNITS: &[Entry] = &[
    entry(
        1,
        "no OBU, or more than 64",
        "A unit has 1 to 64 OBUs. In reading each 00 00 01 counts as one.",
        "in a segment the packet that began the PES, else 0",
        "Look for start codes that are none: an OBU that was carried without escaping has 00 00 01 \
         inside.",
    ),
    entry(
        2,
        "too long, or lengths that do not add up",
        "The OBUs of a unit have at most 1,048,576 bytes together, a carried unit at most \
         1,573,056, one payload at most 1,572,864; lengths that are handed in add up to the bytes.",
        "in a segment the packet that began the PES, else 0",
        "A unit that long is mostly two units, because a PES start got lost between them.",
    ),
    entry(
        3,
        "an OBU of no bytes",
        "Between a start code and the next, or the end, stands at least one byte.",
        OBU,
        "Look at what wrote the start codes: two stand back to back.",
    ),
    entry(
        4,
        "OBU header wrong",
        "The top bit of an OBU is 0, and where its extension bit is set a second byte follows.",
        OBU,
        "What stands behind the start code is no OBU: a line error, or another format.",
    ),
    entry(
        5,
        "OBU size wrong",
        "Where an OBU has a size, that is a leb128 of at most 8 bytes and below 2 to the 32, and \
         says exactly how many bytes remain. A temporal delimiter has no content.",
        OBU,
        "Zeros that were trimmed before a start code leave an OBU too short: 12 00 becomes 12. \
         Closing zeros belong to the OBU.",
    ),
    entry(
        6,
        "tile list",
        "An OBU of type 8 is not carried.",
        OBU,
        "Encode without large-scale tiles.",
    ),
    entry(
        7,
        "order of the OBUs broken",
        "A temporal delimiter only comes first; then headers, metadata, padding and reserved \
         types; then one frame that is the last OBU, or one frame header followed by tile groups, \
         redundant frame headers and padding, ending in a tile group. A frame header with \
         show_existing_frame is the whole frame.",
        "the index of the OBU that breaks the order, the OBU count where the list ends too soon; \
         in a segment the packet that began the PES",
        "A unit is one frame. Two frames in a PES are two units; padding stands before the frame \
         or between tile groups.",
    ),
    entry(
        8,
        "output too short",
        "What is to be written has room in the buffers lent for it.",
        "in a segment the packet's index, else 0",
        "Lend a longer buffer; this tool always lends enough.",
    ),
    entry(
        9,
        "no start code at the head",
        "A carried unit begins with 00 00 01.",
        "in a segment the packet that began the PES, else 0",
        "The OBUs were put into the PES as they are in a file. In a transport stream each has 00 \
         00 01 before it and is escaped.",
    ),
    entry(
        10,
        "illegal payload bytes",
        "Behind its start code an OBU has no 00 00 00, 00 00 01 or 00 00 02, and 00 00 03 only \
         before a byte of 0 to 3 or at the end.",
        "the OBU's index; in a segment the packet that began the PES; of a single payload, where \
         the sequence begins",
        "The OBU was carried without escaping, or an escaping of other rules was used.",
    ),
    entry(
        40,
        "video descriptor wrong",
        "An AV1 video descriptor is six bytes: 80 04, marker 1 and version 1, reserved bit 0, and \
         four zero bits at the end where no delay is present.",
        "",
        "Compare with av1ts descriptor HEX; a descriptor can be made from its fields.",
    ),
    entry(
        41,
        "descriptor field too large",
        "Each field of a video descriptor fits its bits.",
        "",
        "seq_profile has 3 bits, seq_level_idx_0 5, chroma_sample_position and hdr_wcg_idc 2, the \
         others one.",
    ),
    entry(
        42,
        "header without content, or reduced still picture",
        "A sequence header and a frame header have content, and no sequence header has \
         reduced_still_picture_header (the fifth bit of its content).",
        OBU,
        "Reduced still pictures are not carried: encode as video.",
    ),
    entry(
        43,
        "sequence header cut short",
        "A sequence header goes on to chroma_sample_position. This is said in place of a field; \
         the segment stays accepted.",
        "",
        "Look at the sequence header of that unit: its content ends too soon.",
    ),
];

/// Of segments.
const SEGMENTS: &[Entry] = &[
    entry(
        20,
        "not whole packets, or too many",
        "A segment has 1 to 65,535 packets of 188 bytes, and nothing else.",
        "",
        "Cut it: --packets A..B takes packets out, --trim begins at the first PAT and ends with \
         the last whole PES.",
    ),
    entry(
        21,
        "no sync byte",
        "Each packet begins with 0x47.",
        PACKET,
        "The file has packets of another size, begins in the middle of one, or lost bytes here.",
    ),
    entry(
        22,
        "transport error",
        "transport_error_indicator is 0.",
        PACKET,
        "The receiver could not correct this packet: look at the line.",
    ),
    entry(
        23,
        "packet header or adaptation field wrong",
        "On every PID but 0x1FFF: not scrambled; adaptation control not 00; an adaptation field of \
         183 bytes without payload and of at most 182 with it; a PCR has its bytes, and its \
         extension is below 300.",
        PACKET,
        "Descramble before checking; otherwise look at what wrote the packet.",
    ),
    entry(
        24,
        "continuity counter wrong",
        "On PID 0, the map PID and every listed PID each packet with payload counts one more \
         modulo 16, and a packet without payload repeats the counter. With discontinuity_indicator \
         any value passes.",
        PACKET,
        "Packets got lost before this one, or two streams share a PID.",
    ),
    entry(
        25,
        "PAT wrong",
        "A payload on PID 0 is one whole section that begins it, with 0xFF behind: table 0, \
         current, section 0 of 0, a right CRC, one program besides program 0, its map PID 0x0010 \
         to 0x1FFE. Later ones equal the first.",
        PACKET,
        "One program to a segment: take the other programs out, or cut where the table changes.",
    ),
    entry(
        26,
        "PMT wrong",
        "A payload on the map PID is one whole section that begins it, with 0xFF behind: table 2, \
         the program of the PAT, current, section 0 of 0, a right CRC, descriptors and entries \
         that fill their lengths, no PID twice, none 0, 0x1FFF or the map PID. Later ones equal \
         the first.",
        PACKET,
        "Cut where the table changes; otherwise look at what wrote it.",
    ),
    entry(
        27,
        "more than 12 streams",
        "A PMT has at most 12 entries.",
        PACKET,
        "Take streams out of the program.",
    ),
    entry(
        28,
        "AV1 entry of the PMT wrong",
        "Exactly one entry is AV1: stream_type 0x06, and the registration 05 04 'AV01' as its \
         first descriptor. The registration stands nowhere else, and the entry has at most one \
         video descriptor, a right one.",
        PACKET,
        "The multiplexer does not write AV1 as AV1-in-MPEG-2-TS has it, or writes two AV1 streams.",
    ),
    entry(
        29,
        "PES header wrong",
        "A PES of the AV1 stream begins with 00 00 01 BD, the bits 10, not scrambled, \
         data_alignment_indicator 1, a PTS or PTS and DTS with their marker bits, and its header \
         ends in the first packet. No payload comes before the first start.",
        PACKET,
        "Where the file begins in the middle of a PES, --trim leaves that out.",
    ),
    entry(
        30,
        "PES without a PTS",
        "Each PES of the AV1 stream has a PTS.",
        PACKET,
        "A recording of the draft period has units without times: see --edition.",
    ),
    entry(
        31,
        "AV1 payload before any PCR",
        "On the PCR PID of the PMT a PCR comes after the PMT and before the first AV1 payload, or \
         in the same packet.",
        PACKET,
        "Where the file is a cut, --trim begins with a PES that has a PCR before it.",
    ),
    entry(
        32,
        "PES length wrong",
        "The PES length is 0 or the number of bytes behind that field.",
        BEGAN,
        "Packets got lost inside the PES by a multiple of 16, or its writer counted wrongly.",
    ),
    entry(
        33,
        "no PAT or no PMT",
        "By the end of the segment there is a PAT and the PMT that it names.",
        "the packet count",
        "The cut is too short, or this is no transport stream with one program.",
    ),
    entry(
        34,
        "more than 1,024 units",
        "A segment has at most 1,024 access units.",
        PACKET,
        "Cut it: --packets A..B.",
    ),
    entry(
        44,
        "unknown edition",
        "The edition is 0 (current) or 1 (draft).",
        "",
        "--edition current or --edition draft.",
    ),
];

/// Of sheets, of the buffer, of mastering figures and of the queue.
const OTHERS: &[Entry] = &[
    entry(
        45,
        "sheet wrong",
        "A sheet's length is the one that its counts give, its numbers are within their bounds, \
         and units and OBUs stand in order.",
        "",
        "Write the sheet anew from its segment: av1ts sheet FILE.ts -o SHEET.",
    ),
    entry(
        46,
        "arrival out of time",
        "The time of an arrival does not go back, and lies at most 27,000,000 ticks (a second) \
         behind the last.",
        "the arrival's index in the run",
        "Replay the parts before and after the gap apart from each other.",
    ),
    entry(
        47,
        "replay out of bounds",
        "The rate is 1 to 1,000,000,000 bits a second, an arrival has at most 188 bytes, there are \
         at most 1,000,000 of them, and as many times as byte counts.",
        "the arrival's index in the run, else 0",
        "Look at the trace at that line.",
    ),
    entry(
        48,
        "mastering content wrong",
        "The content is type 2 as a leb128, eight numbers of 16 bits, two of 32, and one byte 80.",
        "",
        "Take the content of the metadata OBU, from the type on and without header and size.",
    ),
    entry(
        49,
        "mastering value too large",
        "A chromaticity is at most 50,000 steps of 0.00002, a maximum luminance at most \
         167,772,159,980 and a minimum at most 2,621,439,999 steps of 0.0001.",
        "",
        "Look at the unit of the values: they are steps, not decimals.",
    ),
    entry(
        50,
        "queue full",
        "A queue has at most 8 units.",
        "",
        "Send, or drop the oldest.",
    ),
    entry(
        51,
        "unit or time not accepted",
        "A unit that is queued is accepted by reading, and its times have 33 bits.",
        "",
        "av1ts list UNIT says what is wrong with a unit.",
    ),
    entry(
        52,
        "channel not allowed",
        "Descriptor, PIDs, program number, counters and PCR are such as a check accepts.",
        "",
        "Compare them with av1ts explain 25, 26 and 28.",
    ),
    entry(
        53,
        "too many packets to send",
        "A send writes at most 65,535 packets.",
        "",
        "Send fewer units at a time.",
    ),
];

/// All of them, in the order of their numbers within each topic.
pub fn all() -> impl Iterator<Item = &'static Entry> {
    UNITS.iter().chain(SEGMENTS).chain(OTHERS)
}

/// What is said of a number.
pub fn of(number: u64) -> Option<&'static Entry> {
    all().find(|entry| entry.number == number)
}

/// The name of a number.
pub fn name(number: u64) -> &'static str {
    of(number).map_or("no number of the library", |entry| entry.name)
}

/// What 24 adds: the library accepts a repeated packet.
pub const REPEATS: &str = "A packet with payload may be sent twice in a row on its PID, all bytes equal but the PCR; \
     a third copy is refused.";
