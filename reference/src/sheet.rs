//! The sheet beside a segment: "three sections in a fixed order, each after its count: streams
//! (PID, stream_type), units (first packet, carried length, PTS, DTS), OBUs (unit, type, carried
//! payload offset in its unit, payload length). All numbers, counts too, are 8 bytes big-endian."

use crate::obu;
use crate::packet;
use crate::refusal::{OUTPUT_TOO_SHORT, Refusal};
use crate::section::MOST_STREAMS;
use crate::segment::{self, Accepted, Listing, MOST_PACKETS, MOST_UNITS, Rooms};
use crate::unit::{MOST_CARRIED, MOST_OBUS, payloads};

/// "a count passes 12, 1,024 or 65,536"
const MOST_LISTED_OBUS: usize = MOST_UNITS * MOST_OBUS;

/// "a time passes 8,589,934,592"
pub const MOST_LISTED_TIME: u64 = 8_589_934_592;

#[derive(Clone, Copy, Debug, PartialEq, Eq)]
pub struct Stream {
    pub pid: u64,
    pub stream_type: u64,
}

#[derive(Clone, Copy, Debug, PartialEq, Eq)]
pub struct Unit {
    pub first_packet: u64,
    pub length: u64,
    pub pts: u64,
    pub dts: u64,
}

#[derive(Clone, Copy, Debug, PartialEq, Eq)]
pub struct Obu {
    pub unit: u64,
    pub obu_type: u64,
    pub offset: u64,
    pub length: u64,
}

/// What a sheet says.
#[derive(Clone, Debug, Default, PartialEq, Eq)]
pub struct Sheet {
    pub streams: Vec<Stream>,
    pub units: Vec<Unit>,
    pub obus: Vec<Obu>,
}

impl Sheet {
    /// "The sheet of an accepted segment is the one its content defines, in stream, unit and OBU
    /// order."
    pub fn of(accepted: &Accepted, listing: &Listing) -> Sheet {
        let mut sheet = Sheet::default();
        for &(pid, stream_type) in &listing.streams {
            sheet.streams.push(Stream {
                pid: u64::from(pid),
                stream_type: u64::from(stream_type),
            });
        }
        for (index, unit) in accepted.units.iter().enumerate() {
            sheet.units.push(Unit {
                first_packet: listing.first_packets[index] as u64,
                length: unit.bytes.len() as u64,
                pts: unit.pts,
                dts: unit.dts,
            });
            for part in payloads(&unit.bytes) {
                sheet.obus.push(Obu {
                    unit: index as u64,
                    obu_type: u64::from(obu::header(unit.bytes[part.start]).obu_type),
                    offset: part.start as u64,
                    length: part.len() as u64,
                });
            }
        }
        sheet
    }

    /// The numbers of each section, without its count.
    pub fn numbers(&self) -> [Vec<u64>; 3] {
        let streams = self.streams.iter();
        let units = self.units.iter();
        let obus = self.obus.iter();
        [
            streams.flat_map(|s| [s.pid, s.stream_type]).collect(),
            units
                .flat_map(|u| [u.first_packet, u.length, u.pts, u.dts])
                .collect(),
            obus.flat_map(|o| [o.unit, o.obu_type, o.offset, o.length])
                .collect(),
        ]
    }

    pub fn counts(&self) -> [u64; 3] {
        [self.streams.len(), self.units.len(), self.obus.len()].map(|count| count as u64)
    }

    pub fn bytes(&self) -> Vec<u8> {
        self.bytes_with(self.counts())
    }

    /// The bytes with these counts, be they right or not.
    pub fn bytes_with(&self, counts: [u64; 3]) -> Vec<u8> {
        let mut bytes = Vec::new();
        for (count, numbers) in counts.into_iter().zip(self.numbers()) {
            bytes.extend(count.to_be_bytes());
            for number in numbers {
                bytes.extend(number.to_be_bytes());
            }
        }
        bytes
    }
}

/// What writing gives: the check's verdict, and the sheet of an accepted segment where it has room.
pub struct Written {
    pub verdict: Result<Accepted, Refusal>,
    pub sheet: Result<Vec<u8>, Refusal>,
}

/// "Writing runs the check: its refusals come first, and the sheet then keeps its old bytes; 8 for
/// a short sheet leaves the check's outputs as accepted."
pub fn write(edition: u64, segment: &[u8], rooms: Rooms, sheet_room: usize) -> Written {
    let checked = segment::check_listing(edition, segment, rooms);
    let sheet = match &checked {
        Err(refusal) => Err(*refusal),
        Ok((accepted, listing)) => {
            let bytes = Sheet::of(accepted, listing).bytes();
            if bytes.len() > sheet_room {
                Err(Refusal::new(8, 0, OUTPUT_TOO_SHORT))
            } else {
                Ok(bytes)
            }
        }
    };
    let verdict = checked.map(|(accepted, _)| accepted);
    Written { verdict, sheet }
}

/// The conditions of 45.
pub const CONDITIONS: &[&str] = &[
    "45: a count is cut off",
    "45: shorter than the counts give",
    "45: longer than the counts give",
    "45: more than 12 streams",
    "45: more than 1,024 units",
    "45: more than 65,536 OBUs",
    "45: a PID above 1FFE",
    "45: a stream_type above 255",
    "45: first packets do not strictly ascend",
    "45: a first packet reaches 65,535",
    "45: a carried length above 1,573,056",
    "45: a PTS above 8,589,934,592",
    "45: a DTS above 8,589,934,592",
    "45: a unit without OBU",
    "45: a unit of more than 64 OBUs",
    "45: OBUs not in unit order",
    "45: an OBU names no unit",
    "45: a type above 15",
    "45: an empty payload",
    "45: payloads overlap or do not ascend",
    "45: a payload passes its unit",
];

/// Takes numbers from the front.
struct Numbers<'a> {
    rest: &'a [u8],
}

impl Numbers<'_> {
    fn next(&mut self) -> Option<u64> {
        if self.rest.len() < 8 {
            return None;
        }
        let (number, rest) = self.rest.split_at(8);
        self.rest = rest;
        Some(u64::from_be_bytes(number.try_into().ok()?))
    }

    /// A section: its count, which may not pass a limit, and so many lists of `N` numbers.
    fn section<const N: usize>(
        &mut self,
        most: usize,
        passed: &'static str,
    ) -> Result<Vec<[u64; N]>, &'static str> {
        let count = self.next().ok_or("45: a count is cut off")?;
        if count > most as u64 {
            return Err(passed);
        }
        let mut lists = Vec::new();
        for _ in 0..count {
            let mut list = [0; N];
            for number in &mut list {
                *number = self.next().ok_or("45: shorter than the counts give")?;
            }
            lists.push(list);
        }
        Ok(lists)
    }
}

/// The three sections where the length is the one that the counts give, and no count is too high.
fn sections(bytes: &[u8]) -> Result<Sheet, &'static str> {
    let mut numbers = Numbers { rest: bytes };
    let mut sheet = Sheet::default();
    for [pid, stream_type] in numbers.section(MOST_STREAMS, "45: more than 12 streams")? {
        sheet.streams.push(Stream { pid, stream_type });
    }
    for [first_packet, length, pts, dts] in
        numbers.section(MOST_UNITS, "45: more than 1,024 units")?
    {
        sheet.units.push(Unit {
            first_packet,
            length,
            pts,
            dts,
        });
    }
    for [unit, obu_type, offset, length] in
        numbers.section(MOST_LISTED_OBUS, "45: more than 65,536 OBUs")?
    {
        sheet.obus.push(Obu {
            unit,
            obu_type,
            offset,
            length,
        });
    }
    if !numbers.rest.is_empty() {
        return Err("45: longer than the counts give");
    }
    Ok(sheet)
}

/// The conditions on the numbers, each by itself.
fn wrong(sheet: &Sheet) -> Option<&'static str> {
    wrong_numbers(sheet).or_else(|| wrong_obus(sheet))
}

/// Those on streams and units.
fn wrong_numbers(sheet: &Sheet) -> Option<&'static str> {
    for stream in &sheet.streams {
        if stream.pid >= u64::from(packet::NULL) {
            return Some("45: a PID above 1FFE");
        }
        if stream.stream_type > 255 {
            return Some("45: a stream_type above 255");
        }
    }
    for pair in sheet.units.windows(2) {
        if pair[0].first_packet >= pair[1].first_packet {
            return Some("45: first packets do not strictly ascend");
        }
    }
    for unit in &sheet.units {
        if unit.first_packet >= MOST_PACKETS as u64 {
            return Some("45: a first packet reaches 65,535");
        }
        if unit.length > MOST_CARRIED as u64 {
            return Some("45: a carried length above 1,573,056");
        }
        if unit.pts > MOST_LISTED_TIME {
            return Some("45: a PTS above 8,589,934,592");
        }
        if unit.dts > MOST_LISTED_TIME {
            return Some("45: a DTS above 8,589,934,592");
        }
    }
    None
}

/// Those on OBUs, and on the units by their OBUs.
fn wrong_obus(sheet: &Sheet) -> Option<&'static str> {
    for obu in &sheet.obus {
        if obu.unit >= sheet.units.len() as u64 {
            return Some("45: an OBU names no unit");
        }
        if obu.obu_type > 15 {
            return Some("45: a type above 15");
        }
        if obu.length == 0 {
            return Some("45: an empty payload");
        }
        // Added as whole numbers.
        let end = u128::from(obu.offset) + u128::from(obu.length);
        if end > u128::from(sheet.units[obu.unit as usize].length) {
            return Some("45: a payload passes its unit");
        }
    }
    for pair in sheet.obus.windows(2) {
        if pair[0].unit > pair[1].unit {
            return Some("45: OBUs not in unit order");
        }
        if pair[0].unit == pair[1].unit && pair[0].offset + pair[0].length > pair[1].offset {
            return Some("45: payloads overlap or do not ascend");
        }
    }
    let mut own = vec![0; sheet.units.len()];
    for obu in &sheet.obus {
        own[obu.unit as usize] += 1;
    }
    if own.contains(&0) {
        return Some("45: a unit without OBU");
    }
    if own.iter().any(|&own| own > MOST_OBUS) {
        return Some("45: a unit of more than 64 OBUs");
    }
    None
}

/// Reading but 8: "45, in reading, exactly where" one of the conditions holds.
pub fn accept(bytes: &[u8]) -> Result<Sheet, Refusal> {
    let sheet = sections(bytes).map_err(|condition| Refusal::new(45, 0, condition))?;
    match wrong(&sheet) {
        Some(condition) => Err(Refusal::new(45, 0, condition)),
        None => Ok(sheet),
    }
}

/// Reading into rooms, in numbers: "then 8".
pub fn read(bytes: &[u8], rooms: [usize; 3]) -> Result<Sheet, Refusal> {
    let sheet = accept(bytes)?;
    for (numbers, room) in sheet.numbers().iter().zip(rooms) {
        if numbers.len() > room {
            return Err(Refusal::new(8, 0, OUTPUT_TOO_SHORT));
        }
    }
    Ok(sheet)
}

/// "a unit found by number, from 0, is the one extraction gives, or none exactly from the unit
/// count on"
pub fn find(bytes: &[u8], number: u64) -> Result<Option<Unit>, Refusal> {
    let sheet = accept(bytes)?;
    let index = usize::try_from(number).unwrap_or(usize::MAX);
    Ok(sheet.units.get(index).copied())
}
