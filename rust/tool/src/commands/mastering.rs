//! av1ts mastering

use super::{Command, print};
use crate::args::{Args, Shape, number};
use crate::failure::{Done, Failure, fail};
use crate::hex;
use crate::json::Json;
use crate::library;
use crate::reading::finding::{Finding, lines};
use crate::screen::Screen;

pub const MASTERING: Command = Command {
    name: "mastering",
    summary: "reads or writes mastering figures (metadata_hdr_mdcv)",
    usage: "HEX.. [--json]\nVALUE VALUE .. (ten)",
    about: "\
Reads the content of a metadata OBU of type 2, from its type on, and shows the ten figures; or writes
such a content from ten whole numbers of ST 2086, in the content's order: x and y of red, green, blue
and white in steps of 0.00002, maximum and minimum luminance in steps of 0.0001. Ten arguments are
values, anything else is hexadecimal digits.

  --json   the figures as one JSON object, in a line",
    shape: Shape {
        flags: &["--json"],
        values: &[],
        least: 1,
        most: usize::MAX,
    },
    run,
};

const NAMES: [&str; 10] = [
    "primary_chromaticity_x[0]",
    "primary_chromaticity_y[0]",
    "primary_chromaticity_x[1]",
    "primary_chromaticity_y[1]",
    "primary_chromaticity_x[2]",
    "primary_chromaticity_y[2]",
    "white_point_chromaticity_x",
    "white_point_chromaticity_y",
    "luminance_max",
    "luminance_min",
];

fn run(args: &Args, screen: &mut Screen) -> Done {
    let words = args.texts()?;
    let text = if words.len() == 10 {
        library::write_mastering(&values(&words)?).map(|bytes| hex::show(&bytes) + "\n")
    } else {
        let read = library::read_mastering(&hex::parse(&words)?);
        if args.has("--json") {
            read.map(|figures| format!("{}\n", json(&figures)))
        } else {
            read.map(|figures| lines(&findings(&figures), ""))
        }
    };
    print(screen, "mastering", text)
}

fn values(words: &[&str]) -> Result<[u64; 10], Failure> {
    let mut values = [0; 10];
    for (value, word) in values.iter_mut().zip(words) {
        *value = match number(word) {
            Some(value) => value,
            None => return fail(format!("mastering: {word} is no whole number")),
        };
    }
    Ok(values)
}

/// The figures with all their digits: each is a whole number divided by a power of two.
pub fn findings(figures: &[f64; 10]) -> Vec<Finding> {
    let named = NAMES.iter().zip(figures);
    named
        .map(|(name, figure)| Finding::new(*name, figure))
        .collect()
}

fn json(figures: &[f64; 10]) -> Json {
    let named = NAMES.iter().zip(figures);
    Json::Object(
        named
            .map(|(name, figure)| (*name, Json::Decimal(figure.to_string())))
            .collect(),
    )
}
