//! The sheet beside a segment.

use super::segment::{Edition, Outputs};
use super::{MOST_OBUS, MOST_UNITS, Refused};
use crate::sheet;

/// The most streams of a sheet.
const MOST_STREAMS: usize = 12;

/// A stream that the program map lists.
#[derive(Clone, Copy, Debug, PartialEq, Eq)]
pub struct SheetStream {
    pub pid: u64,
    pub stream_type: u64,
}

/// An access unit: the index of the packet that began it, its length as carried, and its times,
/// both `NO_TIME` where it has none.
#[derive(Clone, Copy, Debug, PartialEq, Eq)]
pub struct SheetUnit {
    pub first_packet: u64,
    pub length: u64,
    pub pts: u64,
    pub dts: u64,
}

/// An OBU: its unit's number and its type, and where in the unit its payload stands, as carried.
#[derive(Clone, Copy, Debug, PartialEq, Eq)]
pub struct SheetObu {
    pub unit: u64,
    pub obu_type: u64,
    pub offset: u64,
    pub length: u64,
}

/// What a sheet says.
#[derive(Clone, Debug, PartialEq, Eq)]
pub struct Sheet {
    pub streams: Vec<SheetStream>,
    pub units: Vec<SheetUnit>,
    pub obus: Vec<SheetObu>,
}

impl Sheet {
    /// The most bytes of a sheet: three counts, two numbers a stream, four a unit and four an OBU.
    pub const MOST_BYTES: usize =
        8 * (3 + 2 * MOST_STREAMS + 4 * MOST_UNITS + 4 * MOST_OBUS * MOST_UNITS);

    /// The bytes of the sheet of a segment that the check accepts.
    ///
    /// ```
    /// use av1ts::{Edition, Sheet};
    /// # let clip = concat!(env!("CARGO_MANIFEST_DIR"), "/../../samples/clip.ts");
    /// let packets = std::fs::read(clip)?;
    /// let bytes = Sheet::write(Edition::Current, &packets)?;
    /// let sheet = Sheet::read(&bytes)?;
    ///
    /// // each unit of the check has its row, and each payload its place in the unit
    /// let segment = av1ts::check_segment(&packets)?;
    /// for (number, unit) in segment.units().enumerate() {
    ///     let row = Sheet::unit(&bytes, number as u64)?.unwrap();
    ///     assert_eq!(row, sheet.units[number]);
    ///     assert_eq!((row.length, row.pts, row.dts), (unit.carried.len() as u64, unit.pts, unit.dts));
    ///     let obus = sheet.obus.iter().filter(|obu| obu.unit == number as u64);
    ///     let cut = obus.map(|obu| &unit.carried[obu.offset as usize..][..obu.length as usize]);
    ///     assert!(cut.eq(av1ts::payloads(unit.carried).map(|payload| payload.unwrap())));
    /// }
    /// assert_eq!(Sheet::unit(&bytes, sheet.units.len() as u64)?, None);
    /// # Ok::<(), Box<dyn std::error::Error>>(())
    /// ```
    pub fn write(edition: Edition, packets: &[u8]) -> Result<Vec<u8>, Refused> {
        let mut outputs = Outputs::of(packets);
        let mut bytes = vec![0; Sheet::MOST_BYTES];
        let answer = sheet::write_sheet(
            edition.number(),
            packets,
            &mut outputs.bytes,
            &mut outputs.lengths,
            &mut outputs.times,
            &mut bytes,
        );
        Refused::check(answer.number, answer.place)?;
        bytes.truncate(answer.count as usize);
        Ok(bytes)
    }

    /// What the bytes of a sheet say.
    ///
    /// ```
    /// let refused = av1ts::Sheet::read(&[0; 23]).unwrap_err();
    /// assert_eq!(refused.why, av1ts::Refusal::Sheet);
    /// assert!(av1ts::Sheet::read(&[0; 24])?.units.is_empty());
    /// # Ok::<(), Box<dyn std::error::Error>>(())
    /// ```
    pub fn read(bytes: &[u8]) -> Result<Sheet, Refused> {
        let mut streams = vec![0; 2 * MOST_STREAMS];
        let mut units = vec![0; 4 * MOST_UNITS];
        let mut obus = vec![0; 4 * MOST_OBUS * MOST_UNITS];
        let answer = sheet::read_sheet(bytes, &mut streams, &mut units, &mut obus);
        Refused::check(answer.number, answer.place)?;
        let streams = streams.chunks_exact(2).take(answer.streams as usize);
        let units = units.chunks_exact(4).take(answer.units as usize);
        let obus = obus.chunks_exact(4).take(answer.obus as usize);
        Ok(Sheet {
            streams: streams
                .map(|row| SheetStream {
                    pid: row[0],
                    stream_type: row[1],
                })
                .collect(),
            units: units
                .map(|row| SheetUnit {
                    first_packet: row[0],
                    length: row[1],
                    pts: row[2],
                    dts: row[3],
                })
                .collect(),
            obus: obus
                .map(|row| SheetObu {
                    unit: row[0],
                    obu_type: row[1],
                    offset: row[2],
                    length: row[3],
                })
                .collect(),
        })
    }

    /// The unit of a number, from 0, in the bytes of a sheet; none from the unit count on.
    pub fn unit(bytes: &[u8], number: u64) -> Result<Option<SheetUnit>, Refused> {
        let answer = sheet::sheet_unit(bytes, number);
        Refused::check(answer.number, answer.place)?;
        Ok(match answer.found {
            0 => None,
            _ => Some(SheetUnit {
                first_packet: answer.first_packet,
                length: answer.length,
                pts: answer.pts,
                dts: answer.dts,
            }),
        })
    }
}
