//! av1ts list

use super::{Command, input, refused};
use crate::args::{Args, Shape};
use crate::check::hints::of_unit;
use crate::check::listing::{self, Listing, ObuLine};
use crate::failure::{Done, Verdict};
use crate::json::Json;
use crate::library::{self, MOST_CARRIED};
use crate::reading::finding::{Finding, lines};
use crate::reading::sequence;
use crate::refusals;
use crate::screen::Screen;

pub const LIST: Command = Command {
    name: "list",
    summary: "lists the OBUs of a carried unit",
    usage: "UNIT|- [--headers] [--json]\n--hex BYTES..",
    about: "\
Lists the OBUs of a carried unit: type, size, bytes removed in unescaping, and how many bytes the
size takes, 0 where there is none. For a unit that is refused it shows the OBUs up to the one that is.

  --hex       the unit is given as hexadecimal digits
  --headers   sequence headers and mastering figures, too
  --json      one JSON object, in a line",
    shape: Shape {
        flags: &["--hex", "--headers", "--json"],
        values: &[],
        least: 1,
        most: usize::MAX,
    },
    run,
};

fn run(args: &Args, screen: &mut Screen) -> Done {
    let (name, unit) = input(args, MOST_CARRIED + 1)?;
    let listing = listing::list(&unit);
    if args.has("--json") {
        screen.text(&format!("{}\n", json(&name, &unit, &listing)))?;
    } else {
        screen.text(&text(&name, &unit, &listing, args.has("--headers")))?;
    }
    Ok(Verdict::accepted_if(listing.verdict.is_ok()))
}

fn text(name: &str, unit: &[u8], listing: &Listing, headers: bool) -> String {
    let figures = match listing.verdict {
        Err(why) => {
            let place = if (3..=7).contains(&why.number) || why.number == 10 || why.number == 42 {
                "OBU"
            } else {
                ""
            };
            let mut text = refused(name, why, place) + "\n";
            text.push_str("  found there, by the tool's own reading:\n");
            text.push_str(&lines(&listing.findings(unit), "    "));
            if let Some(hint) = of_unit(unit) {
                text.push_str(&crate::check::text::wrapped("hint: ", &hint));
            }
            return text;
        }
        Ok(figures) => figures,
    };
    let mut text = format!("obus {} removed {}\n", figures.obus, figures.dropped);
    for (index, obu) in listing.obus.iter().enumerate() {
        text.push_str(&line(index, obu));
        if headers {
            text.push_str(&lines(&header(obu), "    "));
        }
    }
    text
}

fn line(index: usize, obu: &ObuLine) -> String {
    format!(
        "{index} type {} size {} removed {} width {}  {}\n",
        obu.header.kind,
        obu.obu.len(),
        obu.removed,
        obu.header.width,
        obu.name(),
    )
}

/// The fields of a sequence header, or mastering figures.
fn header(obu: &ObuLine) -> Vec<Finding> {
    let content = obu.header.content(&obu.obu);
    match obu.header.kind {
        1 => match sequence::read(content) {
            Some(sequence) => sequence.findings(),
            None => vec![Finding::new("sequence header", "cut short")],
        },
        5 => match library::read_mastering(content) {
            Ok(figures) => super::mastering::findings(&figures),
            Err(_) => Vec::new(),
        },
        _ => Vec::new(),
    }
}

fn json(name: &str, unit: &[u8], listing: &Listing) -> Json {
    let (verdict, refusal) = match listing.verdict {
        Ok(_) => ("accepted", Json::Null),
        Err(why) => {
            let refusal = Json::Object(vec![
                ("number", why.number.into()),
                ("name", Json::text(refusals::name(why.number))),
                ("place", why.place.into()),
                ("found", Json::list(&listing.findings(unit), Finding::json)),
            ]);
            ("refused", refusal)
        }
    };
    let figures = listing.verdict.ok();
    let figure = |value: Option<usize>| Json::option(value.map(Json::from));
    Json::Object(vec![
        ("unit", Json::text(name)),
        ("bytes", unit.len().into()),
        ("verdict", Json::text(verdict)),
        ("refusal", refusal),
        ("obu_bytes", figure(figures.map(|figures| figures.bytes))),
        ("dropped", figure(figures.map(|figures| figures.dropped))),
        ("obus", Json::list(&listing.obus, obu_json)),
    ])
}

fn obu_json(obu: &ObuLine) -> Json {
    Json::Object(vec![
        ("type", Json::Number(u64::from(obu.header.kind))),
        ("name", Json::text(obu.name())),
        ("bytes", obu.obu.len().into()),
        ("removed", obu.removed.into()),
        ("width", obu.header.width.into()),
        ("payload_at", obu.at.into()),
        ("payload_bytes", obu.payload.into()),
        ("headers", Json::list(&header(obu), Finding::json)),
    ])
}
