//! av1ts explain

use super::Command;
use crate::args::{Args, Shape, number, shown};
use crate::check::text::wrapped;
use crate::failure::{Done, Verdict, fail};
use crate::refusals::{self, Entry};
use crate::screen::Screen;

pub const EXPLAIN: Command = Command {
    name: "explain",
    summary: "says what a refusal's number means",
    usage: "[NUMBER]",
    about: "Says the rule behind a number, what its place is, and what can be done. Without a \
     number it lists all.",
    shape: Shape {
        flags: &[],
        values: &[],
        least: 0,
        most: 1,
    },
    run,
};

fn run(args: &Args, screen: &mut Screen) -> Done {
    let word = match args.words.first() {
        Some(word) => shown(word),
        None => {
            let lines =
                refusals::all().map(|entry| format!("{:3}  {}\n", entry.number, entry.name));
            screen.text(&lines.collect::<String>())?;
            return Ok(Verdict::Accepted);
        }
    };
    match number(&word).and_then(refusals::of) {
        Some(entry) => {
            screen.text(&text(entry))?;
            Ok(Verdict::Accepted)
        }
        None => fail(format!(
            "explain: {word} is no refusal's number; av1ts explain lists them"
        )),
    }
}

fn text(entry: &Entry) -> String {
    let mut text = format!("{}: {}\n", entry.number, entry.name);
    text.push_str(&wrapped("rule:  ", entry.rule));
    if entry.number == 24 {
        text.push_str(&wrapped("       ", refusals::REPEATS));
    }
    let place = if entry.place.is_empty() {
        "0"
    } else {
        entry.place
    };
    text.push_str(&wrapped("place: ", place));
    text.push_str(&wrapped("do:    ", entry.remedy));
    text
}
