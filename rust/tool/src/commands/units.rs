//! av1ts units

use super::Command;
use super::check::Options;
use crate::args::{Args, Shape, shown};
use crate::check::{Report, text};
use crate::failure::{Done, Failure, Verdict, fail};
use crate::files;
use crate::screen::{Screen, say};
use std::ffi::{OsStr, OsString};
use std::fs;
use std::path::Path;

mod temporal;

pub const UNITS: Command = Command {
    name: "units",
    summary: "writes the access units of a segment",
    usage: "FILE.ts -o FOLDER\nFILE.ts --obu FILE | --ivf FILE",
    about: "\
Writes the access units of an accepted segment.

  -o FOLDER       each unit as it is carried, with start codes and escaped, as 0000.unit and so on
  --obu FILE      all units as decoders take them: unescaped OBUs, each with a size, a temporal
                  delimiter before each temporal unit
  --ivf FILE      the same in an IVF file, with the PTS as times
  --packets, --trim, --edition  as of av1ts check
  --force         overwrites what is there

A refused segment has no units: its verdict is said on standard error, with status 1.",
    shape: Shape {
        flags: &["--trim", "--force"],
        values: &["-o", "--obu", "--ivf", "--packets", "--edition"],
        least: 1,
        most: 1,
    },
    run,
};

fn run(args: &Args, screen: &mut Screen) -> Done {
    let wanted = ["-o", "--obu", "--ivf"];
    let given: Vec<(&str, &OsStr)> = wanted
        .iter()
        .filter_map(|name| args.value(name).map(|value| (*name, value)))
        .collect();
    let (form, target) = match given.as_slice() {
        [one] => *one,
        _ => return fail("units: one of -o, --obu and --ivf is needed"),
    };
    let force = args.has("--force");
    if form != "-o" {
        files::free(target, force)?;
    }
    let report = Options::of(args)?.report(&args.words[0], false)?;
    for words in &report.piece.left_out {
        say(&format!("left out: {words}"));
    }
    if report.refusal.is_some() {
        say(text::verdict(&report).trim_end());
        return Ok(Verdict::Refused);
    }
    match form {
        "-o" => carried(&report, target, force, screen)?,
        "--obu" => files::write(target, &temporal::obus(&report), force, screen)?,
        _ => files::write(target, &temporal::ivf(&report), force, screen)?,
    }
    Ok(Verdict::Accepted)
}

/// Each carried unit in a file of its own.
fn carried(
    report: &Report,
    folder: &OsStr,
    force: bool,
    screen: &mut Screen,
) -> Result<(), Failure> {
    let units = report.checked.units();
    let path = Path::new(folder);
    let names: Vec<OsString> = (0..units.len())
        .map(|index| path.join(format!("{index:04}.unit")).into_os_string())
        .collect();
    fs::create_dir_all(path).map_err(|error| Failure(format!("{}: {error}", shown(folder))))?;
    for name in &names {
        files::free(name, force)?;
    }
    for (unit, name) in units.iter().zip(&names) {
        files::write(name, unit.bytes, force, screen)?;
    }
    Ok(())
}
