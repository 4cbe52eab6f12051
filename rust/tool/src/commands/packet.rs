//! av1ts packet

use super::Command;
use crate::args::{Args, Shape, number, shown};
use crate::check::piece::{self, Range};
use crate::failure::{Done, Verdict, fail};
use crate::hex;
use crate::json::Json;
use crate::library::{self, Edition};
use crate::reading::finding::{Finding, lines};
use crate::reading::packet::{Packet, SIZE, packet};
use crate::reading::scan::{Class, Scan};
use crate::reading::section::Section;
use crate::reading::{pat, pes, pmt};
use crate::screen::Screen;

pub const PACKET: Command = Command {
    name: "packet",
    summary: "takes one packet apart",
    usage: "FILE.ts N [--json]",
    about: "\
Shows packet N of a file, from 0: its header and adaptation field, the table or PES header in it, and
its bytes. This is the tool's own reading; nothing is judged.

  --json   one JSON object, in a line",
    shape: Shape {
        flags: &["--json"],
        values: &[],
        least: 2,
        most: 2,
    },
    run,
};

fn run(args: &Args, screen: &mut Screen) -> Done {
    let word = shown(&args.words[1]);
    let index = match number(&word) {
        Some(index) if index < 1 << 48 => index,
        _ => return fail(format!("packet: {word} is no packet's number")),
    };
    // Tables that came before are looked for as far back as a segment reaches.
    let from = index.saturating_sub(library::MOST_PACKETS as u64);
    let range = Range {
        from,
        to: Some(index + 1),
    };
    let piece = piece::read(&args.words[0], range)?;
    let place = (index - from) as usize;
    if piece.bytes.len() < (place + 1) * SIZE {
        let file = shown(&args.words[0]);
        return fail(format!("{file}: there is no whole packet {index}"));
    }
    let scan = Scan::over(&piece.bytes, place, Edition::Current);
    let here = packet(&piece.bytes, place);
    let mut found = here.findings();
    found.extend(inside(here, &scan));
    if args.has("--json") {
        let object = Json::Object(vec![
            ("packet", index.into()),
            ("byte", (index * SIZE as u64).into()),
            ("fields", Json::list(&found, Finding::json)),
            ("bytes", Json::text(hex::show(here.0))),
        ]);
        screen.text(&format!("{object}\n"))?;
    } else {
        let head = format!("packet {index}, byte {}\n", index * SIZE as u64);
        screen.text(&(head + &lines(&found, "  ") + &hex::dump(here.0, "  ")))?;
    }
    Ok(Verdict::Accepted)
}

/// What the payload is, as far as the tables before it tell.
fn inside(here: Packet, scan: &Scan) -> Vec<Finding> {
    let payload = here.payload();
    if !here.has_payload() {
        return vec![Finding::new("payload", "none")];
    }
    let section = Section::new(payload);
    match (scan.class(here.pid()), here.start()) {
        (Class::Null, _) => Vec::new(),
        (Class::Section, true) if here.pid() == 0 => pat::findings(section, true).split_off(1),
        (Class::Section, true) => {
            let pat = scan.pat.as_ref().map(|table| table.read);
            let (program, map_pid) = pat.map_or((0, 0), |pat| (pat.program, pat.map_pid));
            pmt::findings(section, true, program, map_pid, scan.edition).split_off(1)
        }
        (_, true) if payload.starts_with(&[0, 0, 1]) => {
            let mut found = pes::findings(payload, false);
            if scan.class(here.pid()) != Class::Av1 {
                found.iter_mut().for_each(|line| line.wrong = None);
            }
            found
        }
        _ => vec![Finding::new("payload", format!("{} bytes", payload.len()))],
    }
}
