//! Sequence headers made bit by bit, each with what is known of it from its making, and segments
//! that carry them.

use crate::helpers::segment::set_up::{AV1, MAP, OTHER, PROGRAM};
use crate::helpers::segment::{Caller, Verdict};
use crate::helpers::unit::{List, any_obu, carry_list};
use crate::kit::{Random, Suite};
use reference::comparison::{Comparison, Found};
use reference::compose::{Entry, Packet, Pes, head, pmt, segment};
use reference::descriptor::{self, REGISTRATION};
use reference::obu::Kind::Type;
use reference::sequence::Fields;

/// An operating point.
#[derive(Clone, Copy, Debug)]
struct Point {
    level: u8,
    tier: u8,
    with_parameters: bool,
    with_delay: bool,
}

/// What a header is to have.
#[derive(Clone, Debug)]
pub struct Header {
    profile: u8,
    pub reduced: bool,
    timing: bool,
    /// The zeros before the uvlc's 1, where there is an equal_picture_interval.
    ticks: Option<usize>,
    /// buffer_delay_length_minus_1, where there is a decoder model; it needs timing.
    decoder_model: Option<u8>,
    delays: bool,
    points: Vec<Point>,
    width_bits: usize,
    height_bits: usize,
    frame_ids: bool,
    order_hint: bool,
    choose_tools: bool,
    force_tools: bool,
    choose_integer: bool,
    high_bitdepth: bool,
    twelve_bit: bool,
    mono: bool,
    description: Option<[u8; 3]>,
    subsampling: (bool, bool),
    position: u8,
}

/// A header that was made.
#[derive(Clone, Debug)]
pub struct Made {
    /// To the end of the last byte.
    pub bits: Vec<bool>,
    /// The bits up to chroma_sample_position, or to where it is passed by.
    pub need: usize,
    pub fields: Fields,
    pub features: Vec<&'static str>,
}

/// All that a made header can have.
pub const FEATURES: &[&str] = &[
    "profile 0",
    "profile 1",
    "profile 2",
    "profile 3 to 7",
    "reserved profile with high_bitdepth",
    "timing info",
    "a uvlc of 32 zeros and more",
    "a uvlc of no zero",
    "decoder model",
    "operating parameters",
    "display delays",
    "1 operating point",
    "32 operating points",
    "operating point 1 is another",
    "a tier is coded",
    "a tier is not coded",
    "tier 1",
    "frame ids",
    "order hint",
    "screen content tools chosen",
    "screen content tools forced on",
    "screen content tools forced off",
    "integer motion forced",
    "high bit depth",
    "twelve bits",
    "twelve_bit coded as 0",
    "monochrome",
    "colour description",
    "sRGB",
    "two thirds of sRGB",
    "monochrome in sRGB",
    "4:2:0",
    "4:2:2",
    "4:4:4",
    "4:2:0 of twelve bits",
    "4:2:2 of twelve bits",
    "4:4:4 of twelve bits",
    "chroma_sample_position 0",
    "chroma_sample_position 1",
    "chroma_sample_position 2",
    "chroma_sample_position 3",
];

impl Header {
    /// A header of any kind.
    pub fn any(random: &mut Random) -> Header {
        let mut coin = |n| random.one_in(n);
        let (timing, delays, frame_ids) = (coin(3), coin(3), coin(3));
        let (order_hint, choose_tools, force_tools) = (coin(2), coin(2), coin(2));
        let (choose_integer, high_bitdepth, twelve_bit) = (coin(2), coin(2), coin(2));
        let (mono, subsampling, equal) = (coin(4), (coin(2), coin(2)), coin(2));
        let ticks = match random.below(4) {
            _ if !equal => None,
            0 => Some(random.pick(&[0, 31, 32, 33, 40])),
            _ => Some(random.below(12)),
        };
        let model = timing && random.one_in(2);
        let mut points = Vec::new();
        for _ in 0..random.pick(&[1, 1, 1, 1, 2, 3, 32]) {
            let any = random.below(32) as u8;
            points.push(Point {
                level: random.pick(&[0, 1, 7, 8, 9, 13, 31, any]),
                tier: random.below(2) as u8,
                with_parameters: random.one_in(2),
                with_delay: random.one_in(2),
            });
        }
        let description = match random.below(8) {
            0..=2 => None,
            3 | 4 => Some([1, 13, 0]),
            // Nearly sRGB.
            5 => Some(random.pick(&[[1, 13, 1], [1, 1, 0], [9, 13, 0], [0, 13, 0], [1, 14, 0]])),
            _ => Some([0, 8, 16].map(|at| (random.next() >> at) as u8)),
        };
        let any = random.below(8) as u8;
        Header {
            profile: random.pick(&[0, 0, 1, 2, 2, 2, any]),
            reduced: false,
            timing,
            ticks,
            decoder_model: model.then(|| random.below(32) as u8),
            delays,
            points,
            width_bits: 1 + random.below(16),
            height_bits: 1 + random.below(16),
            frame_ids,
            order_hint,
            choose_tools,
            force_tools,
            choose_integer,
            high_bitdepth,
            twelve_bit,
            mono,
            description,
            subsampling,
            position: random.below(4) as u8,
        }
    }

    /// Writes the header; bits that make no difference have any value.
    pub fn make(&self, random: &mut Random) -> Made {
        let mut writer = Writer {
            random,
            bits: Vec::new(),
            features: Vec::new(),
        };
        writer.put(u64::from(self.profile), 3);
        writer.any(1);
        writer.put(u64::from(self.reduced), 1);
        if self.reduced {
            writer.put(u64::from(self.points[0].level), 5);
        } else {
            self.timing(&mut writer);
            self.points(&mut writer);
        }
        self.tools(&mut writer);
        let (twelve_bit, mono, subsampling, position) = self.colour(&mut writer);
        let need = writer.bits.len();
        // separate_uv_delta_q of three planes, film_grain_params_present, trailing bits.
        if !mono {
            writer.any(1);
        }
        writer.any(1);
        writer.put(1, 1);
        while writer.bits.len() % 8 != 0 {
            writer.put(0, 1);
        }
        let first = self.points[0];
        let tier = if self.reduced || first.level <= 7 {
            0
        } else {
            first.tier
        };
        Made {
            need,
            fields: [
                self.profile,
                first.level,
                tier,
                u8::from(self.high_bitdepth),
                u8::from(twelve_bit),
                u8::from(mono),
                u8::from(subsampling.0),
                u8::from(subsampling.1),
                position,
            ],
            bits: writer.bits,
            features: writer.features,
        }
    }

    fn timing(&self, writer: &mut Writer) {
        writer.flag(self.timing);
        if self.timing {
            writer.has("timing info");
            writer.any(32);
            writer.any(32);
            writer.flag(self.ticks.is_some());
            if let Some(zeros) = self.ticks {
                writer.put(0, zeros);
                writer.put(1, 1);
                match zeros {
                    0 => writer.has("a uvlc of no zero"),
                    32.. => writer.has("a uvlc of 32 zeros and more"),
                    _ => writer.any(zeros),
                }
            }
            writer.flag(self.decoder_model.is_some());
            if let Some(length) = self.decoder_model {
                writer.has("decoder model");
                writer.put(u64::from(length), 5);
                writer.any(32);
                writer.any(5);
                writer.any(5);
            }
        }
        writer.flag(self.delays);
    }

    fn points(&self, writer: &mut Writer) {
        writer.put(self.points.len() as u64 - 1, 5);
        match self.points[..] {
            [_] => writer.has("1 operating point"),
            [first, second, ..] if (first.level, first.tier) != (second.level, second.tier) => {
                writer.has("operating point 1 is another");
            }
            _ => {}
        }
        if self.points.len() == 32 {
            writer.has("32 operating points");
        }
        for (index, point) in self.points.iter().enumerate() {
            writer.any(12);
            writer.put(u64::from(point.level), 5);
            if point.level > 7 {
                writer.put(u64::from(point.tier), 1);
            }
            if index == 0 {
                writer.has(match (point.level > 7, point.tier) {
                    (false, _) => "a tier is not coded",
                    (true, 0) => "a tier is coded",
                    (true, _) => "tier 1",
                });
            }
            if let Some(length) = self.decoder_model {
                writer.flag(point.with_parameters);
                if point.with_parameters {
                    writer.has("operating parameters");
                    writer.any(usize::from(length) + 1);
                    writer.any(usize::from(length) + 1);
                    writer.any(1);
                }
            }
            if self.delays {
                writer.has("display delays");
                writer.flag(point.with_delay);
                if point.with_delay {
                    writer.any(4);
                }
            }
        }
    }

    /// The frame's size and the tools.
    fn tools(&self, writer: &mut Writer) {
        writer.put(self.width_bits as u64 - 1, 4);
        writer.put(self.height_bits as u64 - 1, 4);
        writer.any(self.width_bits);
        writer.any(self.height_bits);
        if !self.reduced {
            writer.flag(self.frame_ids);
            if self.frame_ids {
                writer.has("frame ids");
                writer.any(4);
                writer.any(3);
            }
        }
        writer.any(3);
        if !self.reduced {
            writer.any(4);
            writer.flag(self.order_hint);
            if self.order_hint {
                writer.has("order hint");
                writer.any(2);
            }
            writer.flag(self.choose_tools);
            if !self.choose_tools {
                writer.flag(self.force_tools);
            }
            writer.has(match (self.choose_tools, self.force_tools) {
                (true, _) => "screen content tools chosen",
                (false, true) => "screen content tools forced on",
                (false, false) => "screen content tools forced off",
            });
            if self.choose_tools || self.force_tools {
                writer.flag(self.choose_integer);
                if !self.choose_integer {
                    writer.has("integer motion forced");
                    writer.any(1);
                }
            }
            if self.order_hint {
                writer.any(3);
            }
        }
        writer.any(3);
    }

    /// color_config( ): twelve_bit, mono_chrome, both subsamplings and the position, as they are to
    /// be in a descriptor.
    fn colour(&self, writer: &mut Writer) -> (bool, bool, (bool, bool), u8) {
        writer.has(match self.profile {
            0 => "profile 0",
            1 => "profile 1",
            2 => "profile 2",
            _ => "profile 3 to 7",
        });
        writer.flag(self.high_bitdepth);
        let mut twelve_bit = false;
        if self.high_bitdepth {
            writer.has("high bit depth");
            if self.profile == 2 {
                twelve_bit = self.twelve_bit;
                writer.flag(twelve_bit);
                writer.has(match twelve_bit {
                    true => "twelve bits",
                    false => "twelve_bit coded as 0",
                });
            } else if self.profile > 2 {
                writer.has("reserved profile with high_bitdepth");
            }
        }
        let mono = self.mono && self.profile != 1;
        if self.profile != 1 {
            writer.flag(mono);
        }
        writer.flag(self.description.is_some());
        for value in self.description.into_iter().flatten() {
            writer.put(u64::from(value), 8);
        }
        if self.description.is_some() {
            writer.has("colour description");
        }
        let srgb = self.description == Some([1, 13, 0]);
        if mono {
            writer.any(1);
            writer.has("monochrome");
            if srgb {
                writer.has("monochrome in sRGB");
            }
            return (twelve_bit, mono, (true, true), 0);
        }
        if srgb {
            writer.has("sRGB");
            return (twelve_bit, mono, (false, false), 0);
        }
        match self.description {
            Some([a, b, c]) if u8::from(a == 1) + u8::from(b == 13) + u8::from(c == 0) == 2 => {
                writer.has("two thirds of sRGB");
            }
            _ => {}
        }
        let (subsampling, position) = self.subsampling(writer, twelve_bit);
        (twelve_bit, mono, subsampling, position)
    }

    /// color_range, both subsamplings and the position.
    fn subsampling(&self, writer: &mut Writer, twelve_bit: bool) -> ((bool, bool), u8) {
        writer.any(1);
        let (x, y) = match self.profile {
            0 => (true, true),
            1 => (false, false),
            _ if twelve_bit => {
                writer.flag(self.subsampling.0);
                if self.subsampling.0 {
                    writer.flag(self.subsampling.1);
                }
                (self.subsampling.0, self.subsampling.0 && self.subsampling.1)
            }
            _ => (true, false),
        };
        writer.has(match (x, y, twelve_bit) {
            (true, true, false) => "4:2:0",
            (true, false, false) => "4:2:2",
            (false, _, false) => "4:4:4",
            (true, true, true) => "4:2:0 of twelve bits",
            (true, false, true) => "4:2:2 of twelve bits",
            (false, _, true) => "4:4:4 of twelve bits",
        });
        let mut position = 0;
        if x && y {
            position = self.position;
            writer.put(u64::from(position), 2);
            writer.has(match position {
                0 => "chroma_sample_position 0",
                1 => "chroma_sample_position 1",
                2 => "chroma_sample_position 2",
                _ => "chroma_sample_position 3",
            });
        }
        ((x, y), position)
    }
}

struct Writer<'a> {
    random: &'a mut Random,
    bits: Vec<bool>,
    features: Vec<&'static str>,
}

impl Writer<'_> {
    fn has(&mut self, feature: &'static str) {
        if !self.features.contains(&feature) {
            self.features.push(feature);
        }
    }

    fn put(&mut self, value: u64, width: usize) {
        for bit in (0..width).rev() {
            self.bits.push(value >> bit & 1 == 1);
        }
    }

    fn flag(&mut self, flag: bool) {
        self.bits.push(flag);
    }

    fn any(&mut self, width: usize) {
        let zeros = self.random.one_in(4);
        for _ in 0..width {
            let bit = !zeros && self.random.one_in(2);
            self.bits.push(bit);
        }
    }
}

/// Bits as bytes; what is missing from the last byte is filled.
pub fn bytes_of(bits: &[bool], fill: bool) -> Vec<u8> {
    let mut bytes = Vec::new();
    for part in bits.chunks(8) {
        let mut byte = 0;
        for at in 0..8 {
            byte = byte << 1 | u8::from(*part.get(at).unwrap_or(&fill));
        }
        bytes.push(byte);
    }
    bytes
}

impl Made {
    pub fn content(&self) -> Vec<u8> {
        bytes_of(&self.bits, false)
    }
}

/// A sequence header OBU of a content, in any form.
pub fn obu(random: &mut Random, content: &[u8]) -> Vec<u8> {
    any_obu(random, Type(1), content.to_vec())
}

/// A descriptor of the nine fields, with some hdr_wcg_idc, and a delay or none.
pub fn video(fields: &Fields, hdr_wcg: u8, delay: Option<u8>) -> [u8; 6] {
    let mut ten = [0; 10];
    ten[..9].copy_from_slice(fields);
    ten[9] = hdr_wcg;
    let mut video = descriptor::write(&ten, 6).expect("the fields are inside their widths");
    if let Some(delay) = delay {
        video[5] |= 0x10 | delay;
    }
    video
}

/// The most that a descriptor's field can be.
pub fn most(field: usize) -> u8 {
    (1 << descriptor::FIELDS[field].width) - 1
}

/// The same fields with another value of one.
pub fn with(fields: &Fields, field: usize, value: u8) -> Fields {
    let mut fields = *fields;
    fields[field] = value;
    fields
}

/// Another value of a field.
pub fn another(random: &mut Random, fields: &Fields, field: usize) -> Fields {
    let others = usize::from(most(field));
    let value = (usize::from(fields[field]) + 1 + random.below(others)) % (others + 1);
    with(fields, field, value as u8)
}

/// The packets of a segment with a descriptor or none, and one PES a unit.
pub fn packets(video: Option<[u8; 6]>, units: &[Vec<u8>]) -> Vec<Packet> {
    registered(&REGISTRATION, video, units)
}

/// The same with the registration of an edition.
pub fn registered(
    registration: &[u8; 6],
    video: Option<[u8; 6]>,
    units: &[Vec<u8>],
) -> Vec<Packet> {
    let more: &[u8] = video.as_ref().map_or(&[], |video| video);
    let entries = [
        Entry::new(0x0F, OTHER, &[0x80, 0x00]),
        Entry::new(0x06, AV1, &[registration, more].concat()),
    ];
    let pmt = pmt(PROGRAM, AV1, &[], &entries);
    let mut packets = head((PROGRAM, MAP), pmt, Packet::clock(AV1, (90, 0)));
    for (index, unit) in units.iter().enumerate() {
        packets.extend(Pes::new(3000 * index as u64, None, unit).packets(AV1));
    }
    packets
}

/// A unit of sequence headers and a frame, as carried.
pub fn unit_of(headers: &[Vec<u8>]) -> Vec<u8> {
    let mut list: List = vec![vec![0x12, 0x00]];
    list.extend_from_slice(headers);
    list.push(vec![0x30, 0xAA]);
    carry_list(&list)
}

/// What is to be found: in which unit, and what.
pub type Expected = Option<(usize, Found)>;

pub fn is(verdict: &Verdict, expected: Expected) -> bool {
    let expected = expected.map(|(unit, found)| Comparison { unit, found });
    matches!(verdict, Ok(accepted) if accepted.comparison == expected)
}

/// Checks units beside a descriptor, where the comparison must be the one that is known.
pub fn check(
    suite: &mut Suite,
    caller: &mut Caller,
    video: Option<[u8; 6]>,
    units: &[Vec<u8>],
    expected: Expected,
    labels: &[&str],
) {
    let bytes = segment(&packets(video, units));
    let found = found_label(expected);
    let labels = [labels, &[found]].concat();
    caller.check_wide_as(suite, &bytes, &labels, |verdict| is(verdict, expected));
}

/// What is found, as a label.
pub const FOUND: [&str; 11] = [
    "first differs: seq_profile",
    "first differs: seq_level_idx_0",
    "first differs: seq_tier_0",
    "first differs: high_bitdepth",
    "first differs: twelve_bit",
    "first differs: monochrome",
    "first differs: chroma_subsampling_x",
    "first differs: chroma_subsampling_y",
    "first differs: chroma_sample_position",
    "43: cut short",
    "none found",
];

fn found_label(expected: Expected) -> &'static str {
    match expected {
        Some((_, Found::Field(field))) => FOUND[field],
        Some((_, Found::CutShort)) => FOUND[9],
        None => FOUND[10],
    }
}
