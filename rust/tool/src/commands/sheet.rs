//! av1ts sheet and av1ts seek

use super::check::Options;
use super::{Command, print, refused};
use crate::args::{Args, Shape, number, shown};
use crate::check::piece::{self, Range};
use crate::check::text;
use crate::check::units::shown_time;
use crate::failure::{Done, Failure, Verdict, fail};
use crate::files;
use crate::library::sheet::{self, MOST_SHEET, Sheet, SheetUnit};
use crate::library::{self, MOST_PACKETS};
use crate::reading::obu::type_name;
use crate::reading::pid;
use crate::reading::scan::unit_bytes;
use crate::screen::{Screen, say};

pub const SHEET: Command = Command {
    name: "sheet",
    summary: "writes the sheet beside a segment, or shows one",
    usage: "FILE.ts -o SHEET [--edition E] [--force]\n--show SHEET",
    about: "\
Writes the sheet of an accepted segment: its streams, units and OBUs. A refused segment has none.

  --show     shows what a sheet says
  --edition  as of av1ts check
  --force    overwrites the file",
    shape: Shape {
        flags: &["--show", "--force"],
        values: &["-o", "--edition"],
        least: 1,
        most: 1,
    },
    run: run_sheet,
};

pub const SEEK: Command = Command {
    name: "seek",
    summary: "takes one unit out of a segment by its sheet",
    usage: "SHEET N FILE.ts -o UNIT [--force]",
    about: "\
Looks up unit N, from 0, in a sheet, and writes the unit from its place in the segment, which is not
read up to there.

  -o UNIT   where the carried unit is written
  --force   overwrites the file

Status: 1 where the sheet is refused or has no such unit, or the unit there is not the sheet's.",
    shape: Shape {
        flags: &["--force"],
        values: &["-o"],
        least: 3,
        most: 3,
    },
    run: run_seek,
};

fn run_sheet(args: &Args, screen: &mut Screen) -> Done {
    if args.has("--show") {
        return show(args, screen);
    }
    let target = match args.value("-o") {
        Some(target) => target,
        None => return fail("sheet: -o is needed, or --show"),
    };
    files::free(target, args.has("--force"))?;
    let report = Options::of(args)?.report(&args.words[0], false)?;
    match sheet::write(report.edition, &report.piece.bytes) {
        Ok(bytes) => {
            files::write(target, &bytes, args.has("--force"), screen)?;
            Ok(Verdict::Accepted)
        }
        Err(_) => {
            say(text::verdict(&report).trim_end());
            Ok(Verdict::Refused)
        }
    }
}

fn show(args: &Args, screen: &mut Screen) -> Done {
    let bytes = files::read_part(&args.words[0], 0, MOST_SHEET as u64 + 1)?.bytes;
    let text = sheet::read(&bytes).map(|read| lines(&read));
    print(screen, &shown(&args.words[0]), text)
}

fn lines(read: &Sheet) -> String {
    let mut text = String::new();
    for stream in &read.streams {
        text.push_str(&format!(
            "stream PID {} stream_type 0x{:02X}\n",
            pid(stream.pid as u16),
            stream.stream_type
        ));
    }
    for (index, unit) in read.units.iter().enumerate() {
        text.push_str(&format!(
            "unit {index}  first packet {}  bytes {}  PTS {}  DTS {}\n",
            unit.first_packet,
            unit.length,
            shown_time(unit.pts),
            shown_time(unit.dts)
        ));
        for obu in read.obus.iter().filter(|obu| obu.unit == index as u64) {
            text.push_str(&format!(
                "  type {} ({})  payload at {}, {} bytes\n",
                obu.obu_type,
                type_name(obu.obu_type as u8),
                obu.offset,
                obu.length
            ));
        }
    }
    text
}

fn run_seek(args: &Args, screen: &mut Screen) -> Done {
    let target = match args.value("-o") {
        Some(target) => target,
        None => return fail("seek: -o is needed"),
    };
    files::free(target, args.has("--force"))?;
    let word = shown(&args.words[1]);
    let index = match number(&word) {
        Some(index) => index,
        None => return fail(format!("seek: {word} is no unit's number")),
    };
    let found = match looked_up(args, index)? {
        Some(found) => found,
        None => return Ok(Verdict::Refused),
    };
    let unit = taken(args, &found)?;
    if unit.len() as u64 != found.length || library::check_unit(&unit).is_err() {
        let (file, packet) = (shown(&args.words[2]), found.first_packet);
        say(&format!(
            "{file}: the unit in packet {packet} is not the sheet's"
        ));
        return Ok(Verdict::Refused);
    }
    files::write(target, &unit, args.has("--force"), screen)?;
    let (pts, dts) = (shown_time(found.pts), shown_time(found.dts));
    say(&format!(
        "unit {index}: {} bytes, PTS {pts}, DTS {dts}",
        unit.len()
    ));
    Ok(Verdict::Accepted)
}

/// The unit's line of the sheet; where there is none, that is said.
fn looked_up(args: &Args, index: u64) -> Result<Option<SheetUnit>, Failure> {
    let name = shown(&args.words[0]);
    let bytes = files::read_part(&args.words[0], 0, MOST_SHEET as u64 + 1)?.bytes;
    match sheet::unit(&bytes, index) {
        Ok(Some(found)) => return Ok(Some(found)),
        Ok(None) => say(&format!("{name}: there is no unit {index}")),
        Err(why) => say(&refused(&name, why, "")),
    }
    Ok(None)
}

/// The unit that begins in the sheet's packet.
fn taken(args: &Args, found: &SheetUnit) -> Result<Vec<u8>, Failure> {
    let range = Range {
        from: found.first_packet,
        to: Some(MOST_PACKETS as u64),
    };
    let piece = piece::read(&args.words[2], range)?;
    Ok(unit_bytes(&piece.bytes, 0))
}
