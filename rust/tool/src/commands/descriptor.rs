//! av1ts descriptor

use super::{Command, print};
use crate::args::{Args, Shape, number};
use crate::failure::{Done, Failure, fail};
use crate::hex;
use crate::json::Json;
use crate::library::{self, Fields, Refused};
use crate::reading::finding::{Finding, lines};
use crate::reading::sequence::FIELDS;
use crate::screen::{Screen, say};

pub const DESCRIPTOR: Command = Command {
    name: "descriptor",
    summary: "reads, writes or rewrites an AV1 video descriptor",
    usage: "HEX.. [--json]\nNAME=VALUE..\n--rewrite HEX..",
    about: "\
Reads the six bytes of a video descriptor and shows its fields; or writes one from its fields, each
of which is 0 where it is not given:

  seq_profile seq_level_idx_0 seq_tier_0 high_bitdepth twelve_bit monochrome chroma_subsampling_x
  chroma_subsampling_y chroma_sample_position hdr_wcg_idc

  --rewrite   reads a descriptor and writes it without its presentation delay
  --json      the fields as one JSON object, in a line",
    shape: Shape {
        flags: &["--rewrite", "--json"],
        values: &[],
        least: 1,
        most: usize::MAX,
    },
    run,
};

/// The name of a field, by its index.
fn name(index: usize) -> &'static str {
    FIELDS.get(index).copied().unwrap_or("hdr_wcg_idc")
}

fn run(args: &Args, screen: &mut Screen) -> Done {
    let words = args.texts()?;
    let text = if args.has("--rewrite") {
        rewrite(&hex::parse(&words)?)
    } else if words.iter().any(|word| word.contains('=')) {
        library::write_descriptor(&fields(&words)?).map(|bytes| hex::show(&bytes) + "\n")
    } else {
        let bytes = hex::parse(&words)?;
        let read = library::read_descriptor(&bytes);
        if args.has("--json") {
            read.map(|fields| format!("{}\n", json(&bytes, &fields)))
        } else {
            read.map(|fields| lines(&findings(&fields), ""))
        }
    };
    print(screen, "descriptor", text)
}

fn rewrite(bytes: &[u8]) -> Result<String, Refused> {
    let (written, dropped) = library::rewrite_descriptor(bytes)?;
    if dropped {
        say("dropped its presentation delay");
    }
    Ok(hex::show(&written) + "\n")
}

/// The ten fields of `name=value` words.
fn fields(words: &[&str]) -> Result<[u8; 10], Failure> {
    let mut field = [0; 10];
    let mut given = [false; 10];
    for word in words {
        let (key, value) = match word.split_once('=') {
            Some(both) => both,
            None => return fail(format!("descriptor: {word} is no NAME=VALUE")),
        };
        let index = match (0..10).find(|index| name(*index) == key) {
            Some(index) => index,
            None => return fail(format!("descriptor: there is no field {key}")),
        };
        if std::mem::replace(&mut given[index], true) {
            return fail(format!("descriptor: {key} stands twice"));
        }
        field[index] = match number(value).and_then(|value| u8::try_from(value).ok()) {
            Some(value) => value,
            None => return fail(format!("descriptor: {value} is no number of 0 to 255")),
        };
    }
    Ok(field)
}

fn findings(fields: &Fields) -> Vec<Finding> {
    let delay = fields
        .delay
        .map_or("none".to_string(), |delay| delay.to_string());
    let values = fields.field.iter().enumerate();
    let mut found: Vec<Finding> = values
        .map(|(index, value)| Finding::new(name(index), value))
        .collect();
    found.push(Finding::new("initial_presentation_delay_minus_one", delay));
    found
}

fn json(bytes: &[u8], fields: &Fields) -> Json {
    let mut object = vec![("bytes", Json::text(hex::show(bytes)))];
    for (index, value) in fields.field.iter().enumerate() {
        object.push((name(index), (*value).into()));
    }
    let delay = Json::option(fields.delay.map(Json::Number));
    object.push(("initial_presentation_delay_minus_one", delay));
    Json::Object(object)
}
