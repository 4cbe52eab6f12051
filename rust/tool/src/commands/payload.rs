//! av1ts escape and av1ts unescape

use super::{Command, input, refuse};
use crate::args::{Args, Shape};
use crate::failure::{Done, Verdict};
use crate::files;
use crate::hex;
use crate::library::{self, MOST_PAYLOAD, MOST_UNIT};
use crate::screen::{Screen, say};

const SHAPE: Shape = Shape {
    flags: &["--hex", "--force"],
    values: &["-o"],
    least: 1,
    most: usize::MAX,
};

pub const ESCAPE: Command = Command {
    name: "escape",
    summary: "escapes one OBU",
    usage: "OBU|- [-o FILE] [--force]\n--hex BYTES..",
    about: "\
Writes the payload that carries an OBU: a 03 is put before a byte of 0 to 3 behind two zeros.

  --hex     the OBU is given as hexadecimal digits, and so is the answer
  -o FILE   writes a file, else standard output; to a terminal it writes digits
  --force   overwrites the file",
    shape: SHAPE,
    run: escape,
};

pub const UNESCAPE: Command = Command {
    name: "unescape",
    summary: "unescapes one payload",
    usage: "PAYLOAD|- [-o FILE] [--force]\n--hex BYTES..",
    about: "\
Writes the OBU of a payload, and says on standard error how many bytes were dropped.

  --hex     the payload is given as hexadecimal digits, and so is the answer
  -o FILE   writes a file, else standard output; to a terminal it writes digits
  --force   overwrites the file",
    shape: SHAPE,
    run: unescape,
};

fn escape(args: &Args, screen: &mut Screen) -> Done {
    let (name, obu) = input(args, MOST_UNIT + 1)?;
    match library::escape(&obu) {
        Ok(payload) => write(args, &payload, screen),
        Err(why) => refuse(&name, why, ""),
    }
}

fn unescape(args: &Args, screen: &mut Screen) -> Done {
    let (name, payload) = input(args, MOST_PAYLOAD + 1)?;
    match library::unescape(&payload) {
        Ok((obu, dropped)) => {
            let done = write(args, &obu, screen)?;
            say(&format!("dropped {dropped}"));
            Ok(done)
        }
        Err(why) => refuse(&name, why, if why.number == 10 { "byte" } else { "" }),
    }
}

fn write(args: &Args, bytes: &[u8], screen: &mut Screen) -> Done {
    match args.value("-o") {
        Some(name) => files::write(name, bytes, args.has("--force"), screen)?,
        None if args.has("--hex") || screen.is_terminal() => {
            screen.text(&format!("{}\n", hex::show(bytes)))?
        }
        None => screen.bytes(bytes)?,
    }
    Ok(Verdict::Accepted)
}
