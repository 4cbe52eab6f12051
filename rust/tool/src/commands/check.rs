//! av1ts check

use super::Command;
use crate::args::{Args, Shape, shown};
use crate::check::piece::{self, Piece, Range};
use crate::check::{Report, json, text, trim};
use crate::failure::{Done, Failure, Verdict, fail};
use crate::files;
use crate::library::Edition;
use crate::report;
use crate::screen::{Progress, Screen};
use std::ffi::OsStr;

pub const CHECK: Command = Command {
    name: "check",
    summary: "checks segments, and shows what is wrong",
    usage: "FILE.ts.. [--json] [--units] [--trim] [--packets A..B] [--edition current|draft]\n\
            FILE.ts --html REPORT [--rate R] [--force] ..",
    about: "\
Says in a line whether the library accepts each file, then its program, AV1 PID, packets and times,
or for a refusal its number and place, the rule, and what stands there. The verdict, program, PID,
totals, units and times are the library's, which is proved; what is found at the place of a refusal,
first packets and hints are the tool's own reading.

  --units         a line a unit
  --json          one JSON object a file, in a line
  --packets A..B  only the packets from A up to B, which is left out; either may be missing
  --trim          begins at the first PAT and ends with the last whole PES, for a cut of a longer
                  stream, and says what it left out
  --edition E     current, or draft for recordings made to the draft of 2018
  --html REPORT   writes a page, too: the packets as a map, units over time, the transport buffer's
                  fill, the tables; one file only
  --rate R        the rate in bits a second that the page's buffer drains at; without it, that of
                  the stream's level
  --force         overwrites the page

Status: 0 where every file is accepted, 1 where one is refused, 2 for wrong arguments or files.",
    shape: Shape {
        flags: &["--json", "--units", "--trim", "--force"],
        values: &["--packets", "--edition", "--html", "--rate"],
        least: 1,
        most: usize::MAX,
    },
    run,
};

fn run(args: &Args, screen: &mut Screen) -> Done {
    let options = Options::of(args)?;
    let page = args.value("--html");
    if let Some(target) = page {
        if args.words.len() > 1 {
            return fail("check: --html takes one file");
        }
        files::free(target, args.has("--force"))?;
    }
    let mut verdict = Verdict::Accepted;
    let mut progress = Progress::new("checking file", args.words.len());
    for (index, name) in args.words.iter().enumerate() {
        progress.at(index + 1);
        let report = options.report(name, args.has("--units"))?;
        if let Some(target) = page {
            let page = report::page(&report, args.number("--rate")?);
            files::write(target, page.as_bytes(), args.has("--force"), screen)?;
        }
        if page != Some(OsStr::new("-")) {
            screen.text(&shown_report(&report, args.has("--json")))?;
        }
        verdict = verdict.and(Verdict::of(report.checked.segment.number));
    }
    Ok(verdict)
}

fn shown_report(report: &Report, as_json: bool) -> String {
    if as_json {
        format!("{}\n", json::json(report))
    } else {
        text::text(report)
    }
}

/// What of a file is checked, and how. Other commands take the same options.
pub struct Options {
    range: Range,
    trim: bool,
    edition: Edition,
}

impl Options {
    pub fn of(args: &Args) -> Result<Options, Failure> {
        Ok(Options {
            range: args
                .text("--packets")?
                .map_or(Ok(Range::ALL), Range::parse)?,
            trim: args.has("--trim"),
            edition: edition(args.text("--edition")?)?,
        })
    }

    pub fn piece(&self, name: &OsStr) -> Result<Piece, Failure> {
        let piece = piece::read(name, self.range)?;
        if self.trim {
            Ok(trim::trim(piece, self.edition))
        } else {
            Ok(piece)
        }
    }

    pub fn report(&self, name: &OsStr, units: bool) -> Result<Report, Failure> {
        Ok(Report::new(
            shown(name),
            self.piece(name)?,
            self.edition,
            units,
        ))
    }
}

fn edition(name: Option<&str>) -> Result<Edition, Failure> {
    match name {
        None | Some("current") => Ok(Edition::Current),
        Some("draft") => Ok(Edition::Draft),
        Some(other) => fail(format!("--edition: {other} is neither current nor draft")),
    }
}
