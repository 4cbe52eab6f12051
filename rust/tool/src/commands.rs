//! The commands.

mod buffer;
mod check;
mod descriptor;
mod explain;
mod list;
mod mastering;
mod mux;
mod packet;
mod payload;
mod salvage;
mod sheet;
mod units;

use crate::args::{Args, Shape};
use crate::failure::{Done, Failure, Verdict, fail};
use crate::library::Refused;
use crate::refusals;
use crate::screen::{Screen, say};

/// A command: how it is called and what it does.
pub struct Command {
    pub name: &'static str,
    /// One line for the list of commands.
    pub summary: &'static str,
    /// How it is called, behind its name.
    pub usage: &'static str,
    /// What its options mean.
    pub about: &'static str,
    pub shape: Shape,
    pub run: fn(&Args, &mut Screen) -> Done,
}

impl Command {
    pub fn help(&self) -> String {
        let usages: Vec<String> = self
            .usage
            .lines()
            .map(|usage| format!("av1ts {} {usage}", self.name))
            .collect();
        format!(
            "usage: {}\n\n{}\n",
            usages.join("\n       "),
            self.about.trim_matches('\n')
        )
    }
}

pub const COMMANDS: &[Command] = &[
    check::CHECK,
    units::UNITS,
    list::LIST,
    payload::ESCAPE,
    payload::UNESCAPE,
    salvage::SALVAGE,
    descriptor::DESCRIPTOR,
    mastering::MASTERING,
    mux::MUX,
    sheet::SHEET,
    sheet::SEEK,
    buffer::BUFFER,
    packet::PACKET,
    explain::EXPLAIN,
];

pub fn find(name: &str) -> Option<&'static Command> {
    COMMANDS.iter().find(|command| command.name == name)
}

/// A refusal outside a segment, in a line.
pub fn refused(name: &str, refused: Refused, at: &str) -> String {
    let place = if at.is_empty() {
        String::new()
    } else {
        format!(", at {at} {}", refused.place)
    };
    format!(
        "{name}: refused {}: {}{place}",
        refused.number,
        refusals::name(refused.number)
    )
}

/// Says a refusal on standard error.
pub fn refuse(name: &str, why: Refused, at: &str) -> Done {
    say(&refused(name, why, at));
    Ok(Verdict::Refused)
}

/// Prints a text, or says why there is none.
pub fn print(screen: &mut Screen, name: &str, text: Result<String, Refused>) -> Done {
    match text {
        Ok(text) => {
            screen.text(&text)?;
            Ok(Verdict::Accepted)
        }
        Err(why) => refuse(name, why, ""),
    }
}

/// The bytes of a command that takes a file, or with --hex the digits on the command line.
pub fn input(args: &Args, most: usize) -> Result<(String, Vec<u8>), Failure> {
    if args.has("--hex") {
        return Ok(("bytes".to_string(), crate::hex::parse(&args.texts()?)?));
    }
    if args.words.len() != 1 {
        return fail("one file is needed, or --hex and digits");
    }
    let bytes = crate::files::read_part(&args.words[0], 0, most as u64)?.bytes;
    Ok((crate::args::shown(&args.words[0]), bytes))
}
