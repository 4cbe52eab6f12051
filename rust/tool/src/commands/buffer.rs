//! av1ts buffer

use super::Command;
use crate::args::{Args, Shape, shown};
use crate::buffer::{arrivals, fill};
use crate::check::trim::aligned;
use crate::failure::{Done, Verdict, fail};
use crate::files;
use crate::library::MOST_PACKETS;
use crate::reading::packet::SIZE;
use crate::screen::Screen;

pub const BUFFER: Command = Command {
    name: "buffer",
    summary: "replays the 512-byte transport buffer",
    usage: "FILE.ts|TRACE|- --rate R [--all] [--json]",
    about: "\
Replays the arrivals of the AV1 packets through the transport buffer of 512 bytes, which drains at R
bits a second, and shows its fill over time and the first overrun. A TRACE has a line an arrival:
its time in ticks of 27 MHz and its bytes; # begins a comment. For a transport stream the time of
each packet is taken from the PCRs around it, evenly; that is the tool's own reckoning, the fill is
the library's.

  --rate R   the drain rate in bits a second, 1 to 1,000,000,000
  --all      a line an arrival
  --json     one JSON object, in a line

Status: 0 where nothing overran, 1 where something did or the trace is refused.",
    shape: Shape {
        flags: &["--all", "--json"],
        values: &["--rate"],
        least: 1,
        most: 1,
    },
    run,
};

/// A trace of 1,000,000 lines has room.
const MOST_BYTES: u64 = 64 << 20;

fn run(args: &Args, screen: &mut Screen) -> Done {
    let rate = match args.number("--rate")? {
        Some(rate) => rate,
        None => return fail("buffer: --rate is needed"),
    };
    let name = shown(&args.words[0]);
    let bytes = files::read(&args.words[0], MOST_BYTES)?;
    let arrivals = if aligned(&bytes, SIZE) == Some(0) {
        let most = bytes.len().min(MOST_PACKETS * SIZE);
        arrivals::of_segment(&bytes[..most])
    } else {
        arrivals::of_trace(&bytes)
    };
    let arrivals = match arrivals {
        Ok(arrivals) => arrivals,
        Err(failure) => return fail(format!("{name}: {}", failure.0)),
    };
    let fill = fill::replay(&arrivals, rate);
    let text = if args.has("--json") {
        format!("{}\n", fill.json(&name, &arrivals))
    } else {
        fill.text(&name, &arrivals, args.has("--all"))
    };
    screen.text(&text)?;
    let fine = fill.refused.is_none() && fill.above.is_none();
    Ok(Verdict::accepted_if(fine))
}
