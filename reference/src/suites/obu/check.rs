//! One OBU: what the check accepts is exactly what can be put together, without the library.

use crate::helpers::leb128::shortest;
use crate::helpers::obu::{CONDITIONS, build, strings};
use crate::kit::{Definition, Suite, hex, labels};
use reference::obu::{self, Checked, Kind};
use std::collections::HashMap;

pub const SUITE: Definition = Definition {
    name: "obu",
    labels: || labels(&[CONDITIONS, LABELS].concat()),
    run,
};

const LABELS: &[&str] = &[
    "accepted",
    "accepted: shown again",
    "put together",
    "worked",
];

/// Every OBU of `len` bytes that can be put together with header, extension and content bytes of
/// the alphabet, and what it was put together from: its kind and the width of its size.
fn constructed(alphabet: &[u8], len: usize) -> HashMap<Vec<u8>, Checked> {
    let mut all = HashMap::new();
    for content_len in 0..len {
        let contents: Vec<Vec<u8>> = strings(alphabet, content_len).collect();
        for obu_type in 0..16 {
            if obu_type == obu::TILE_LIST {
                continue;
            }
            if obu_type == obu::TEMPORAL_DELIMITER && content_len > 0 {
                continue;
            }
            let with_content = obu_type == obu::SEQUENCE_HEADER || obu_type == obu::FRAME_HEADER;
            if with_content && content_len == 0 {
                continue;
            }
            let mut extensions = vec![None];
            extensions.extend(alphabet.iter().map(|&byte| Some(byte)));
            for extension in extensions {
                let so_far = 1 + usize::from(extension.is_some()) + content_len;
                let width = match len.checked_sub(so_far) {
                    Some(width) => width,
                    _ => continue,
                };
                if width > 8 || (width > 0 && width < shortest(content_len as u64)) {
                    continue;
                }
                for low in 0..2 {
                    if !alphabet.contains(&build(obu_type, low, extension, width, &[])[0]) {
                        continue;
                    }
                    for content in &contents {
                        let kind = match obu_type {
                            // reduced_still_picture_header
                            obu::SEQUENCE_HEADER if content[0] / 8 % 2 == 1 => continue,
                            obu::FRAME_HEADER if content[0] / 128 == 1 => Kind::ShownAgain,
                            _ => Kind::Type(obu_type),
                        };
                        let obu = build(obu_type, low, extension, width, content);
                        all.insert(obu, Checked { kind, width });
                    }
                }
            }
        }
    }
    all
}

fn compare(suite: &mut Suite, alphabet: &[u8], len: usize) {
    let accepted = constructed(alphabet, len);
    for string in strings(alphabet, len) {
        let got = obu::check(&string, 5);
        let label = match &got {
            Err(refusal) => refusal.condition,
            Ok(checked) if checked.kind == Kind::ShownAgain => "accepted: shown again",
            Ok(_) => "accepted",
        };
        let passed = match &got {
            Err(refusal) => !accepted.contains_key(&string) && refusal.place == 5,
            Ok(checked) => accepted.get(&string) == Some(checked),
        };
        suite.case(&[label], passed, || format!("{got:?} {}", hex(&string)));
    }
    for (string, checked) in accepted {
        let passed = obu::check(&string, 0) == Ok(checked);
        suite.case(&["put together"], passed, || hex(&string));
    }
}

fn run(suite: &mut Suite) {
    let every: Vec<u8> = (0..=255).collect();
    for len in 0..=2 {
        compare(suite, &every, len);
    }
    let headers = [
        0x00, 0x01, 0x02, 0x03, 0x0A, 0x10, 0x12, 0x16, 0x1E, 0x32, 0x34, 0x42, 0x80, 0x81, 0x82,
        0xB2,
    ];
    for len in 3..=5 {
        compare(suite, &headers, len);
    }
    for len in 6..=8 {
        compare(suite, &[0x01, 0x02, 0x32, 0x80, 0x83], len);
    }
    for len in 9..=12 {
        compare(suite, &[0x00, 0x36, 0x80], len);
    }

    // The worked cases.
    for (bytes, number) in [
        (&[0x32, 0x82, 0x00, 0xAA, 0xBB][..], 0),
        (&[0x32, 0x02, 0xAA], 5),
        (&[0x40], 6),
        (&[0x12, 0x00], 0),
        (&[0x10], 0),
        (&[0x16, 0xFF, 0x00], 0),
        (&[0x14, 0x00, 0x00], 5),
        (&[0x12, 0x01, 0x00], 5),
        (&[0x32, 0xFF, 0xFF, 0xFF, 0xFF, 0x10], 5),
        (&[0x32, 0x80, 0x80, 0x80, 0x80, 0x80, 0x80, 0x80, 0x00], 0),
        (
            &[0x32, 0x80, 0x80, 0x80, 0x80, 0x80, 0x80, 0x80, 0x80, 0x00],
            5,
        ),
        (&[0xC0], 4),
        (&[0x44], 4),
        (&[0x42, 0x01], 5),
        (&[], 3),
        (&[0x08], 42),
        (&[0x0A, 0x00], 42),
        (&[0x0C, 0xFF], 42),
        (&[0x08, 0x08], 42),
        (&[0x0A, 0x02, 0xF7, 0xFF], 0),
        (&[0x18], 42),
        (&[0x1E, 0xFF, 0x80, 0x00], 42),
        (&[0x18, 0x80], 0),
        (&[0x88], 4),
        (&[0x0A, 0x01], 5),
        // Types 6 and 7 are not looked into.
        (&[0x30], 0),
        (&[0x38], 0),
    ] {
        let got = obu::check(bytes, 0);
        let passed = got.as_ref().map_or_else(|refusal| refusal.number, |_| 0) == number;
        suite.case(&["worked"], passed, || format!("{got:?} {}", hex(bytes)));
    }
}
