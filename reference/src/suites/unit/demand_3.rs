//! Demand 3 by brute force, without the library: of all strings that reading accepts as a list, the
//! writer's is one, and strictly shorter than every other.

use crate::kit::{Definition, Suite, hex, labels};
use reference::unit;
use std::collections::HashMap;

pub const SUITE: Definition = Definition {
    name: "demand-3",
    labels: || {
        labels(&[
            "one string for the list",
            "several strings for the list",
            "one OBU",
            "two OBUs",
            "three OBUs",
            "inserted 03",
            "closing 03 at the unit's end",
            "closing 03 before a start code",
            "zeros before a start code",
            "no start code at the head",
            "list accepted by writing",
            "list refused by writing",
            "sequence header",
            "frame shown again",
            "frame in parts",
        ])
    },
    run,
};

type List = Vec<Vec<u8>>;

/// The list that a string is accepted as, if any.
fn read(string: &[u8]) -> Option<List> {
    let obus = unit::accept(string).ok()?;
    Some(obus.into_iter().map(|obu| obu.bytes).collect())
}

fn write(list: &List) -> Option<Vec<u8>> {
    let lengths: Vec<usize> = list.iter().map(|obu| obu.len()).collect();
    unit::written(&list.concat(), &lengths).ok()
}

/// Hands out every string of up to `longest` bytes over an alphabet, after the given head.
fn every_string(alphabet: &[u8], head: &[u8], longest: usize, mut hand: impl FnMut(&[u8])) {
    for len in 0..=longest {
        let mut digits = vec![0; len];
        let mut string = head.to_vec();
        string.resize(head.len() + len, alphabet[0]);
        loop {
            hand(&string);
            let place = match digits.iter().rposition(|&digit| digit + 1 < alphabet.len()) {
                Some(place) => place,
                _ => break,
            };
            digits[place] += 1;
            string[head.len() + place] = alphabet[digits[place]];
            digits[place + 1..].fill(0);
            string[head.len() + place + 1..].fill(alphabet[0]);
        }
    }
}

/// Hands out every list whose OBUs have together `bytes`: all ways to cut them in up to three.
fn every_cut(bytes: &[u8], mut hand: impl FnMut(List)) {
    let len = bytes.len();
    hand(vec![bytes.to_vec()]);
    for first in 0..=len {
        hand(vec![bytes[..first].to_vec(), bytes[first..].to_vec()]);
        for second in first..=len {
            let parts = [&bytes[..first], &bytes[first..second], &bytes[second..]];
            hand(parts.map(|part| part.to_vec()).to_vec());
        }
    }
}

/// A list and all strings that are accepted as it: the writer's is one, and shorter than the others.
fn one(suite: &mut Suite, list: &List, strings: &[Vec<u8>]) {
    let mut labels = vec![match list.len() {
        1 => "one OBU",
        2 => "two OBUs",
        _ => "three OBUs",
    }];
    labels.push(match strings.len() {
        1 => "one string for the list",
        _ => "several strings for the list",
    });
    for obu in list {
        match obu[0] / 8 {
            1 => labels.push("sequence header"),
            3 if obu[1] >= 0x80 => labels.push("frame shown again"),
            3 => labels.push("frame in parts"),
            _ => {}
        }
    }
    let written = write(list);
    let passed = match &written {
        None => false,
        Some(written) => {
            strings.contains(written)
                && strings
                    .iter()
                    .all(|s| s == written || s.len() > written.len())
        }
    };
    if let Some(written) = &written {
        if written.len() > list.concat().len() + 3 * list.len() {
            labels.push("inserted 03");
        }
        for string in strings.iter().filter(|&string| string != written) {
            labels.push(if string.ends_with(&[0, 0, 3]) {
                "closing 03 at the unit's end"
            } else {
                "closing 03 before a start code"
            });
        }
        if written.windows(4).skip(1).any(|four| four == [0, 0, 0, 1]) {
            labels.push("zeros before a start code");
        }
    }
    suite.case(&labels, passed, || format!("{list:?} {}", hex(&strings[0])));
}

fn compare(suite: &mut Suite, alphabet: &[u8], longest: usize, list_bytes: usize) {
    // All strings up to the length, by the list that they are accepted as.
    let mut strings_of: HashMap<List, Vec<Vec<u8>>> = HashMap::new();
    every_string(alphabet, &unit::START_CODE, longest, |string| {
        if let Some(list) = read(string) {
            strings_of.entry(list).or_default().push(string.to_vec());
        }
    });

    for (list, strings) in &strings_of {
        one(suite, list, strings);
    }

    // Every list that writing accepts, and no other, has the writer's string among them.
    every_string(alphabet, &[], list_bytes, |bytes| {
        every_cut(bytes, |list| {
            let written = write(&list);
            let known = strings_of.get(&list);
            let (label, passed) = match &written {
                None => ("list refused by writing", known.is_none()),
                Some(written) if written.len() > longest + 3 => return,
                Some(written) => (
                    "list accepted by writing",
                    matches!(known, Some(strings) if strings.contains(written)),
                ),
            };
            suite.case(&[label], passed, || format!("{list:?}"));
        });
    });

    // No string without a start code at the head is accepted as anything.
    every_string(alphabet, &[], 6, |string| {
        if !string.starts_with(&unit::START_CODE) {
            let passed = read(string).is_none();
            suite.case(&["no start code at the head"], passed, || hex(string));
        }
    });
}

fn run(suite: &mut Suite) {
    compare(suite, &[0x00, 0x01, 0x03, 0x30], 10, 6);
    compare(suite, &[0x00, 0x01, 0x03, 0x10, 0x30], 9, 5);
    compare(suite, &[0x00, 0x01, 0x03, 0x18, 0x20], 9, 5);
    compare(suite, &[0x00, 0x01, 0x03, 0x18, 0x80], 9, 5);
    compare(suite, &[0x00, 0x01, 0x03, 0x08, 0x30], 9, 5);
    compare(suite, &[0x00, 0x01, 0x02, 0x03, 0x04, 0x30, 0x32], 7, 4);
}
