//! av1ts salvage

use super::{Command, input, refuse};
use crate::args::{Args, Shape};
use crate::failure::{Done, Verdict};
use crate::files;
use crate::hex;
use crate::library::MOST_CARRIED;
use crate::library::salvage::{Salvage, salvage};
use crate::refusals;
use crate::screen::{Screen, say};

pub const SALVAGE: Command = Command {
    name: "salvage",
    summary: "keeps the good OBUs of a damaged unit",
    usage: "UNIT|- -o FILE [--force]\n--hex BYTES..",
    about: "\
Keeps the OBUs of a damaged unit that are right by themselves and writes each in its shortest form;
a line an original OBU says whether it was kept. With -o - the lines go to standard error.

  --hex     the unit is given as hexadecimal digits, and so is the answer
  -o FILE   where what is kept is written
  --force   overwrites the file

Status: 0 where reading accepts what is kept, else 1.",
    shape: Shape {
        flags: &["--hex", "--force"],
        values: &["-o"],
        least: 1,
        most: usize::MAX,
    },
    run,
};

fn run(args: &Args, screen: &mut Screen) -> Done {
    let (name, unit) = input(args, MOST_CARRIED + 1)?;
    if let Some(target) = args.value("-o") {
        files::free(target, args.has("--force"))?;
    }
    let kept = match salvage(&unit) {
        Ok(kept) => kept,
        Err(why) => return refuse(&name, why, ""),
    };
    let text = lines(&name, &kept);
    match args.value("-o") {
        Some(target) => {
            files::write(target, &kept.bytes, args.has("--force"), screen)?;
            if target == "-" {
                say(text.trim_end());
            } else {
                screen.text(&text)?;
            }
        }
        None => screen.text(&format!("{text}{}\n", hex::show(&kept.bytes)))?,
    }
    Ok(Verdict::accepted_if(kept.accepted))
}

fn lines(name: &str, kept: &Salvage) -> String {
    let mut text = format!("{name}: {} of {} OBUs kept", kept.kept, kept.marks.len());
    if kept.leading > 0 {
        text.push_str(&format!(
            ", {} bytes before the first start code dropped",
            kept.leading
        ));
    }
    let accepted = if kept.accepted {
        "accepts"
    } else {
        "does not accept"
    };
    text.push_str(&format!("; reading {accepted} what is left\n"));
    for (index, mark) in kept.marks.iter().enumerate() {
        let words = match mark {
            0 => "kept".to_string(),
            1 => "kept, a closing 03 removed".to_string(),
            number => format!("dropped, {number}: {}", refusals::name(u64::from(*number))),
        };
        text.push_str(&format!("{index} {words}\n"));
    }
    text
}
