//! The lister's text: the papers' own, and the text of the reference against one put together from
//! what the library answers.

use crate::helpers::unit::{any_list, carry, carry_closed};
use crate::kit::{Definition, Random, Suite, hex, labels};
use reference::listing::{MOST_LISTED, list};

pub const SUITE: Definition = Definition {
    name: "listing",
    labels: || {
        labels(&[
            "worked",
            "accepted",
            "refused 1",
            "refused 2",
            "refused 3",
            "refused 4",
            "refused 5",
            "refused 6",
            "refused 7",
            "refused 9",
            "refused 10",
            "refused 42",
            "65,536 bytes",
            "65,537 bytes",
            "bytes removed",
            "width 0",
            "width 1",
            "width 2",
            "width 3",
            "width 4",
            "width 5",
            "width 6",
            "width 7",
            "width 8",
        ])
    },
    run,
};

/// The text by the library: the figures of reading, each OBU's type by its first byte, its dropped
/// bytes as payload length minus OBU length, and its width as reading gives it.
fn by_library(input: &[u8]) -> String {
    let mut bytes = vec![0; input.len()];
    let mut lengths = [0; 64];
    let mut widths = [0; 64];
    let read = av1ts::unit::read_unit_widths(input, &mut bytes, &mut lengths, &mut widths);
    if read.number != 0 {
        return format!("refused {} {}\n", read.number, read.place);
    }
    let mut text = format!("obus {} removed {}\n", read.count, read.dropped);
    let mut step = av1ts::walk::walk_start(input);
    let mut obu_at = 0;
    for index in 0..read.count as usize {
        let (length, width) = (lengths[index], widths[index]);
        step = av1ts::walk::walk_step(input, step.next_at as usize);
        let obu_type = bytes.get(obu_at).map_or(0, |&byte| byte / 8 % 16);
        let removed = step.length.wrapping_sub(length as u64);
        text += &format!("{index} type {obu_type} size {length} removed {removed} width {width}\n");
        obu_at += length;
    }
    text
}

fn one(suite: &mut Suite, input: &[u8], more: &[&str]) {
    let text = list(input);
    let mut labels = more.to_vec();
    let refused = text
        .split(' ')
        .nth(1)
        .map(|number| format!("refused {number}"));
    match &refused {
        Some(label) if text.starts_with("refused") => labels.push(label),
        _ => labels.push("accepted"),
    }
    if text.starts_with("obus") && !text.lines().next().unwrap_or("").ends_with("removed 0") {
        labels.push("bytes removed");
    }
    for line in text.lines().skip(1) {
        labels.extend(line.find("width").map(|at| &line[at..]));
    }
    let other = by_library(input);
    suite.case(&labels, text == other, || {
        format!(
            "reference {text:?}, library {other:?}; input {}",
            hex(input)
        )
    });
}

fn run(suite: &mut Suite) {
    let worked: &[(&[u8], &str)] = &[
        (
            &[0, 0, 1, 0x12, 0, 0, 0, 1, 0x30, 0xAA, 0, 0],
            "obus 2 removed 0\n\
             0 type 2 size 2 removed 0 width 1\n\
             1 type 6 size 4 removed 0 width 0\n",
        ),
        (
            &[0, 0, 1, 0x30, 0, 0, 3],
            "obus 1 removed 1\n0 type 6 size 3 removed 1 width 0\n",
        ),
        (
            &[0, 0, 1, 0x12, 0x80, 0, 0, 0, 1, 0x36, 0, 0, 3],
            "obus 2 removed 1\n\
             0 type 2 size 3 removed 0 width 2\n\
             1 type 6 size 3 removed 1 width 1\n",
        ),
        (&[0, 0, 1, 0, 0, 1, 0x30], "refused 3 0\n"),
        (&[0, 0, 1, 0x12, 0], "refused 7 1\n"),
        (&[0, 0, 1, 0x40], "refused 6 0\n"),
        (&[], "refused 9 0\n"),
        (&[0; MOST_LISTED], "refused 9 0\n"),
        (&[0; MOST_LISTED + 1], "refused 2 0\n"),
    ];
    for (input, text) in worked {
        suite.case(&["worked"], list(input) == *text, || hex(input));
    }

    let mut frame = carry(&[vec![0x30]]);
    frame.resize(MOST_LISTED, 0x55);
    one(suite, &frame, &["65,536 bytes"]);
    frame.push(0x55);
    let passed = list(&frame) == "refused 2 0\n";
    suite.case(&["65,537 bytes", "refused 2"], passed, || hex(&frame));

    let mut random = Random::new(11);
    for round in 0..4000 {
        let most = if round % 10 == 0 { 64 } else { 5 };
        let list = any_list(&mut random, most, 10);
        let mut carried = carry_closed(&mut random, &list);
        one(suite, &carried, &[]);
        let place = random.below(carried.len());
        carried[place] = random.pick(&[0, 0, 1, 2, 3, 4, 0x30, 0x40, 0x80, 0xFF]);
        one(suite, &carried, &[]);
    }
    one(suite, &carry(&vec![vec![0x30]; 65]), &[]);
}
