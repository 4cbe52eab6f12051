//! av1ts mux

mod source;
mod split;
mod times;

use super::{Command, refuse};
use crate::args::{Args, Shape, shown};
use crate::failure::{Done, Failure, Verdict, fail};
use crate::files;
use crate::hex;
use crate::library::queue::{MOST_QUEUED, Sender, SenderChannel};
use crate::screen::{Progress, Screen, say};
use times::{Timed, timed};

pub const MUX: Command = Command {
    name: "mux",
    summary: "writes a segment from units, OBU files or IVF files",
    usage: "FILE.. -o OUT.ts --descriptor HEX [--fps N[/D]] [--pid P] ..",
    about: "\
Puts access units into the library's queue and writes the packets that it sends. A FILE is a carried
unit, a file of OBUs with sizes, or an IVF file, whose times are taken; the last two are split into
units of one frame each.

  -o OUT.ts         where the packets are written
  --descriptor HEX  the six bytes of the video descriptor
  --fps N[/D]       frames a second where the file has no times (25)
  --program N       program number (1)
  --map-pid P       PID of the PMT (0x1000)
  --pid P           PID of the AV1 stream (0x0100)
  --pts T           the first PTS in ticks of 90 kHz (90000)
  --ahead T         by how many such ticks a PCR is ahead of the next DTS (45000)
  --force           overwrites the file",
    shape: Shape {
        flags: &["--force"],
        values: &[
            "-o",
            "--descriptor",
            "--fps",
            "--program",
            "--map-pid",
            "--pid",
            "--pts",
            "--ahead",
        ],
        least: 1,
        most: usize::MAX,
    },
    run,
};

/// Units are sent together while they span less than this, so that PCRs come often enough.
const SPAN: u64 = 8_100;

fn run(args: &Args, screen: &mut Screen) -> Done {
    let target = match args.value("-o") {
        Some(target) => target,
        None => return fail("mux: -o is needed"),
    };
    files::free(target, args.has("--force"))?;
    let mut units = Vec::new();
    for name in &args.words {
        match source::read(name)? {
            Ok(read) => units.extend(read),
            Err((index, why)) => {
                let name = format!("{}: unit {}", shown(name), units.len() + index);
                return refuse(&name, why, "OBU");
            }
        }
    }
    let units = timed(&units, args.number("--pts")?.unwrap_or(90_000), fps(args)?);
    match packets(&units, args)? {
        Ok(bytes) => {
            files::write(target, &bytes, args.has("--force"), screen)?;
            say(&format!(
                "{} units, {} packets",
                units.len(),
                bytes.len() / 188
            ));
            Ok(Verdict::Accepted)
        }
        Err((index, why)) => refuse(&format!("unit {index}"), why, ""),
    }
}

type Refusal = (usize, crate::library::Refused);

/// The packets of all units, or the refusal at one of them.
fn packets(units: &[Timed], args: &Args) -> Result<Result<Vec<u8>, Refusal>, Failure> {
    let ahead = args.number("--ahead")?.unwrap_or(45_000);
    let mut sender = Sender::new(channel(args)?, descriptor(args)?);
    let mut bytes = Vec::new();
    let mut progress = Progress::new("unit", units.len());
    let mut from = 0;
    for (index, unit) in units.iter().enumerate() {
        progress.at(index);
        let span = unit.dts.saturating_sub(units[from].dts);
        if sender.queued() == MOST_QUEUED || sender.queued() > 0 && span >= SPAN {
            match sender.send() {
                Ok(sent) => bytes.extend(sent),
                Err(why) => return Ok(Err((from, why))),
            }
            from = index;
        }
        if sender.queued() == 0 {
            sender.channel.pcr = unit.dts.saturating_sub(ahead) * 300;
        }
        if let Err(why) = sender.add(&unit.bytes, unit.pts, unit.dts, unit.marked) {
            return Ok(Err((index, why)));
        }
    }
    match sender.send() {
        Ok(sent) => bytes.extend(sent),
        Err(why) => return Ok(Err((from, why))),
    }
    Ok(Ok(bytes))
}

fn channel(args: &Args) -> Result<SenderChannel, Failure> {
    Ok(SenderChannel {
        program: args.number("--program")?.unwrap_or(1),
        map_pid: args.number("--map-pid")?.unwrap_or(0x1000),
        av1_pid: args.number("--pid")?.unwrap_or(0x0100),
        ..SenderChannel::default()
    })
}

fn descriptor(args: &Args) -> Result<Vec<u8>, Failure> {
    match args.text("--descriptor")? {
        Some(digits) => hex::parse(&[digits]),
        None => fail("mux: --descriptor is needed; av1ts descriptor writes one"),
    }
}

/// Frames a second, as a fraction.
fn fps(args: &Args) -> Result<(u64, u64), Failure> {
    let text = args.text("--fps")?.unwrap_or("25");
    let (over, under) = text.split_once('/').unwrap_or((text, "1"));
    match (over.parse(), under.parse()) {
        (Ok(over), Ok(under)) if over > 0 && under > 0 && over < 1 << 32 && under < 1 << 32 => {
            Ok((over, under))
        }
        _ => fail(format!("mux: --fps: {text} is no frame rate")),
    }
}
