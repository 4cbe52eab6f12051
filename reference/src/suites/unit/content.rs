//! What reading and writing look at in an OBU's content: every first byte of it, and none, of
//! sequence headers and frame headers; and that nothing is looked at in other types.

use crate::helpers::obu::build;
use crate::helpers::unit::{Caller, List, carry_list, lengths};
use crate::kit::{Definition, Suite, labels};
use reference::obu::{self, CONDITIONS_42};

pub const SUITE: Definition = Definition {
    name: "unit-content",
    labels: || {
        let mut list = labels(&[
            "check: accepted",
            "read: accepted",
            "write: accepted",
            "7: after a shown-again frame",
            "7: ends without a last tile group",
            "6: tile list",
            "type 6 is not looked into",
            "type 7 is not looked into",
        ]);
        for form in FORMS {
            for condition in CONDITIONS_42 {
                list.push(format!("{condition}, {form}"));
            }
            list.push(format!("shown again, {form}"));
            list.push(format!("not shown again, {form}"));
            list.push(format!("not a reduced still picture, {form}"));
        }
        list
    },
    run,
};

const FORMS: [&str; 4] = [
    "no size, no extension",
    "size, no extension",
    "no size, extension",
    "size and extension",
];

/// What an OBU of a type and a content is, with and without size and extension.
fn label(obu_type: u8, content: &[u8], with_size: bool, with_extension: bool) -> String {
    let form = FORMS[usize::from(with_size) + 2 * usize::from(with_extension)];
    let what = match (obu_type, content.first()) {
        (1 | 3, None) => obu::wrong_content(obu_type, content).unwrap_or("no 42"),
        (1, Some(first)) if first & 0x08 != 0 => "42: reduced_still_picture_header",
        (1, _) => "not a reduced still picture",
        (3, Some(0x80..)) => "shown again",
        (3, _) => "not shown again",
        (6, _) => return "type 6 is not looked into".to_string(),
        (7, _) => return "type 7 is not looked into".to_string(),
        _ => return "another type".to_string(),
    };
    format!("{what}, {form}")
}

/// The OBU alone, before and after a frame, inside a frame in parts, and beside a tile list.
fn lists(obu: &[u8]) -> [List; 6] {
    let frame = vec![0x30];
    let tile_list = vec![0x40];
    let obu = obu.to_vec();
    [
        vec![obu.clone()],
        vec![vec![0x10], obu.clone(), frame.clone()],
        vec![frame.clone(), obu.clone()],
        vec![vec![0x18, 0x00], obu.clone(), vec![0x20]],
        vec![obu.clone(), tile_list.clone()],
        vec![tile_list, obu, frame],
    ]
}

fn run(suite: &mut Suite) {
    let mut caller = Caller::default();
    let mut contents: Vec<Vec<u8>> = vec![vec![]];
    for first in 0..=255 {
        contents.push(vec![first]);
        contents.push(vec![first, 0, 0, 1]);
    }
    for obu_type in [1, 3, 5, 6, 7] {
        for extension in [None, Some(0x00), Some(0x88), Some(0xFF)] {
            for width in [0, 1, 2, 8] {
                for content in &contents {
                    let obu = build(obu_type, 0, extension, width, content);
                    let label = label(obu_type, content, width > 0, extension.is_some());
                    for list in lists(&obu) {
                        let carried = carry_list(&list);
                        caller.check(suite, &carried, &[&label]);
                        caller.read_wide(suite, &carried, &[&label]);
                        let room = carried.len();
                        let lengths = lengths(&list);
                        caller.write(suite, &list.concat(), &lengths, room, &[&label]);
                    }
                }
            }
        }
    }
}
