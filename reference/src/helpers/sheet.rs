//! Sheets, compared with the reference, and sheets to read.

use crate::helpers::segment::Outputs;
use crate::helpers::under_test::{SegmentOutputs, check_segment, library, rooms_of};
use crate::kit::{Given, Lent, Random, Suite, hex, right};
use av1ts::sheet::{Sheet as SheetRead, SheetFound, SheetWritten};
use reference::refusal::Refusal;
use reference::segment::Rooms;
use reference::sheet::{self, MOST_LISTED_TIME, Obu, Sheet, Stream, Unit, Written};

fn write_sheet(
    edition: u64,
    segment: &[u8],
    outputs: SegmentOutputs,
    sheet: &mut [u8],
) -> SheetWritten {
    if library() {
        let (out, lengths, times) = outputs;
        return av1ts::sheet::write_sheet(edition, segment, out, lengths, times, sheet);
    }
    let rooms = rooms_of(&outputs);
    check_segment(Some(edition), segment, outputs);
    let written = sheet::write(edition, segment, rooms, sheet.len());
    if let Ok(bytes) = &written.sheet {
        sheet[..bytes.len()].copy_from_slice(bytes);
    }
    written_answer(&written)
}

fn read_sheet(bytes: &[u8], outputs: [&mut [u64]; 3]) -> SheetRead {
    let [streams, units, obus] = outputs;
    if library() {
        return av1ts::sheet::read_sheet(bytes, streams, units, obus);
    }
    let read = sheet::read(bytes, [streams.len(), units.len(), obus.len()]);
    if let Ok(sheet) = &read {
        for (numbers, output) in sheet.numbers().iter().zip([streams, units, obus]) {
            output[..numbers.len()].copy_from_slice(numbers);
        }
    }
    read_answer(&read)
}

fn sheet_unit(bytes: &[u8], number: u64) -> SheetFound {
    if library() {
        return av1ts::sheet::sheet_unit(bytes, number);
    }
    found_answer(&sheet::find(bytes, number))
}

/// What the C interface answers to writing.
fn written_answer(written: &Written) -> SheetWritten {
    match &written.sheet {
        Err(refusal) => refused!(SheetWritten, refusal),
        Ok(bytes) => SheetWritten {
            number: 0,
            place: 0,
            count: bytes.len() as u64,
        },
    }
}

/// What the C interface answers to reading.
fn read_answer(read: &Result<Sheet, Refusal>) -> SheetRead {
    match read {
        Err(refusal) => refused!(SheetRead, refusal),
        Ok(sheet) => {
            let [streams, units, obus] = sheet.counts();
            SheetRead {
                streams,
                units,
                obus,
                ..SheetRead::default()
            }
        }
    }
}

/// What the C interface answers to the search of a unit.
fn found_answer(found: &Result<Option<Unit>, Refusal>) -> SheetFound {
    match found {
        Err(refusal) => refused!(SheetFound, refusal),
        Ok(None) => SheetFound::default(),
        Ok(Some(unit)) => SheetFound {
            found: 1,
            first_packet: unit.first_packet,
            length: unit.length,
            pts: unit.pts,
            dts: unit.dts,
            ..SheetFound::default()
        },
    }
}

/// The buffers of one caller, used again from call to call.
#[derive(Default)]
pub struct Caller {
    given: Given<u8>,
    outputs: Outputs,
    sheet: Lent<u8>,
    read: [Lent<u64>; 3],
}

impl Caller {
    /// Writes the sheet of a segment and compares all that came of it with the reference; answers
    /// the sheet.
    pub fn write(
        &mut self,
        suite: &mut Suite,
        edition: u64,
        segment: &[u8],
        (rooms, sheet_room): (Rooms, usize),
        more: &[&str],
    ) -> Option<Vec<u8>> {
        self.given.give(segment);
        let outputs = self.outputs.lend(rooms);
        let sheet_part = self.sheet.lend(sheet_room);
        let got = write_sheet(edition, self.given.part(), outputs, sheet_part);
        let written = sheet::write(edition, segment, rooms, sheet_room);
        let expected = written_answer(&written);
        let outputs = self.outputs.are_of(&written.verdict);
        let sheet = self
            .sheet
            .holds(written.sheet.as_ref().map_or(&[], |bytes| bytes));
        let label = match (&written.verdict, &written.sheet) {
            (Err(_), _) => "refused by the check",
            (Ok(_), Err(_)) => "8: sheet too short",
            (Ok(_), Ok(_)) => "written",
        };
        let passed = got == expected && outputs && sheet && self.given.unchanged(segment);
        suite.case(&[more, &[label]].concat(), passed, || {
            format!(
                "edition {edition}, {rooms:?}, sheet's room {sheet_room}: expected {expected:?}, \
                 got {got:?}, outputs {outputs}, sheet {sheet}; {} bytes",
                segment.len()
            )
        });
        written.sheet.ok()
    }

    /// Reads a sheet into rooms, in numbers, and compares all that came of it with the reference.
    pub fn read(&mut self, suite: &mut Suite, bytes: &[u8], rooms: [usize; 3], more: &[&str]) {
        self.given.give(bytes);
        let [streams, units, obus] = &mut self.read;
        let lent = [
            streams.lend(rooms[0]),
            units.lend(rooms[1]),
            obus.lend(rooms[2]),
        ];
        let got = read_sheet(self.given.part(), lent);
        let read = sheet::read(bytes, rooms);
        let expected = read_answer(&read);
        let numbers = read
            .as_ref()
            .map_or_else(|_| Default::default(), Sheet::numbers);
        let outputs = self
            .read
            .iter()
            .zip(&numbers)
            .all(|(output, numbers)| output.holds(numbers));
        let label = match &read {
            Ok(_) => "read",
            Err(refusal) => refusal.condition,
        };
        let passed = got == expected && outputs && self.given.unchanged(bytes);
        suite.case(&[more, &[label]].concat(), passed, || {
            format!(
                "read into {rooms:?}: expected {expected:?} ({label}), got {got:?}, outputs {}; {}",
                right(outputs),
                hex(bytes)
            )
        });
    }

    /// Reads a sheet into rooms that are large enough for whatever it holds.
    pub fn read_wide(&mut self, suite: &mut Suite, bytes: &[u8], more: &[&str]) {
        let most = bytes.len() / 8 + 1;
        self.read(suite, bytes, [most.min(26), most, most], more);
    }

    /// Looks for a unit by its number.
    pub fn find(&mut self, suite: &mut Suite, bytes: &[u8], number: u64, more: &[&str]) {
        self.given.give(bytes);
        let got = sheet_unit(self.given.part(), number);
        let found = sheet::find(bytes, number);
        let expected = found_answer(&found);
        let label = match &found {
            Ok(Some(_)) => "found",
            Ok(None) => "no such unit",
            Err(_) => "looked for in a bad sheet",
        };
        let passed = got == expected && self.given.unchanged(bytes);
        suite.case(&[more, &[label]].concat(), passed, || {
            format!(
                "unit {number}: expected {expected:?}, got {got:?}; {}",
                hex(bytes)
            )
        });
    }

    /// Reads a sheet, and looks for units around its unit count.
    pub fn all(&mut self, suite: &mut Suite, bytes: &[u8], more: &[&str]) {
        self.read_wide(suite, bytes, more);
        let count = sheet::accept(bytes).map_or(0, |sheet| sheet.units.len() as u64);
        for number in [0, count.saturating_sub(1), count, u64::MAX] {
            self.find(suite, bytes, number, more);
        }
    }
}

/// A sheet that is right, of so many streams and units, each with some OBUs: as no segment need
/// have it, with equal PIDs, gaps, and an offset of 0.
pub fn any_sheet(random: &mut Random, streams: usize, units: usize, most_obus: usize) -> Sheet {
    let mut sheet = Sheet::default();
    for _ in 0..streams {
        sheet.streams.push(Stream {
            pid: random.pick(&[0, 1, 0x1FFE, 0x0100]),
            stream_type: random.pick(&[0, 6, 255]),
        });
    }
    let mut packet = random.below(3) as u64;
    for index in 0..units {
        let mut at = random.below(5) as u64;
        for _ in 0..1 + random.below(most_obus) {
            let length = 1 + random.below(9) as u64;
            sheet.obus.push(Obu {
                unit: index as u64,
                obu_type: random.below(16) as u64,
                offset: at,
                length,
            });
            // Touching, or a gap between.
            at += length + random.pick(&[0, 0, 3]);
        }
        let last = sheet.obus.last().expect("there is one at least");
        let end = last.offset + last.length;
        let any_time = random.next() % (MOST_LISTED_TIME + 1);
        sheet.units.push(Unit {
            first_packet: packet,
            length: end + random.pick(&[0, 0, 7]),
            pts: random.pick(&[0, MOST_LISTED_TIME, any_time]),
            dts: random.pick(&[0, MOST_LISTED_TIME, any_time]),
        });
        packet += 1 + random.pick(&[0, 0, 20]);
    }
    sheet
}
