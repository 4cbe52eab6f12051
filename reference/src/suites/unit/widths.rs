//! Reading with widths: how many bytes the size of each OBU takes. Every width with sizes of every
//! class, all three rooms around the boundary, and every refusal, which leaves the three outputs.

use crate::helpers::leb128::shortest;
use crate::helpers::obu::build;
use crate::helpers::unit::broken::{bad_obus, illegal_payloads};
use crate::helpers::unit::widths::{STANDS, rooms_label};
use crate::helpers::unit::{
    Caller, List, any_list, carry, carry_closed, carry_list, reading_conditions, right_content,
    shortest_obu,
};
use crate::kit::{Definition, Random, Suite, hex, labels};
use reference::obu::Kind::{self, ShownAgain, Type};
use reference::unit::{MOST_BYTES, MOST_CARRIED, MOST_OBUS};

pub const SUITE: Definition = Definition {
    name: "unit-widths",
    labels: || {
        let mut list = labels(&reading_conditions());
        list.extend(labels(&[
            "worked",
            "widths: no room",
            "widths: one short",
            "64 OBUs",
            "the shortest form",
            "a longer form",
            "a width unlike that of the OBU before",
            "the last width is 0",
        ]));
        for bytes in STANDS {
            for lengths in STANDS {
                for widths in STANDS {
                    list.push(rooms_label([bytes, lengths, widths]));
                }
            }
        }
        for (value, class) in SIZES {
            for extension in EXTENSIONS {
                list.push(format!("no size, content of {class}, {extension}"));
                for width in shortest(value as u64)..=8 {
                    list.push(format!("width {width}, {class}, {extension}"));
                }
            }
        }
        list
    },
    run,
};

/// Values of a size: none, the ends of each width's shortest forms, and the most that a unit takes.
const SIZES: [(usize, &str); 8] = [
    (0, "size 0"),
    (1, "size 1"),
    (127, "size 127"),
    (128, "size 128"),
    (16_383, "size 16,383"),
    (16_384, "size 16,384"),
    (65_536, "size 65,536"),
    (1_048_566, "size 1,048,566"),
];

const EXTENSIONS: [&str; 2] = ["no extension", "extension"];

/// A list, known by the widths that it was put together with.
fn one(suite: &mut Suite, caller: &mut Caller, list: &List, widths: &[usize], more: &[&str]) {
    let carried = carry_list(list);
    let mut bytes = vec![0; list.concat().len()];
    let mut lengths = [usize::MAX; MOST_OBUS];
    let mut got = [usize::MAX; MOST_OBUS];
    let answer = av1ts::unit::read_unit_widths(&carried, &mut bytes, &mut lengths, &mut got);
    let count = list.len();
    let passed = answer.number == 0
        && got[..count] == *widths
        && got[count..].iter().all(|&width| width == usize::MAX);
    suite.case(more, passed, || {
        format!(
            "widths {widths:?}, got {answer:?} and {got:?}; input {}",
            hex(&carried)
        )
    });
    caller.read_widths_wide(suite, &carried, more);
}

/// A list of one OBU that is right for its kind, with what must stand around it.
fn with_frame(kind: Kind, obu: Vec<u8>) -> (List, usize) {
    match kind {
        Type(6) | ShownAgain => (vec![obu], 0),
        Type(3) => (vec![obu, vec![0x20]], 0),
        Type(4 | 7) => (vec![vec![0x18, 0], obu, vec![0x20]], 1),
        _ => (vec![obu, vec![0x30]], 0),
    }
}

/// Every width with sizes of every class, with and without extension; and no size.
fn classes(suite: &mut Suite, caller: &mut Caller) {
    for (size, class) in SIZES {
        for kind in [
            Type(1),
            Type(2),
            Type(3),
            ShownAgain,
            Type(4),
            Type(5),
            Type(6),
            Type(15),
        ] {
            // Large contents once; a delimiter has none; 1 and 3 have some.
            if (size > 65_536 && kind != Type(6))
                || (size > 0 && kind == Type(2))
                || (size == 0 && matches!(kind, Type(1 | 3) | ShownAgain))
            {
                continue;
            }
            let content = right_content(kind, vec![0x55; size]);
            for extension in [None, Some(0), Some(2), Some(0x55), Some(0x80), Some(0xFF)] {
                let with = EXTENSIONS[usize::from(extension.is_some())];
                for width in (0..=8).filter(|&width| width == 0 || width >= shortest(size as u64)) {
                    let obu = build(kind.obu_type(), 0, extension, width, &content);
                    let (list, at) = with_frame(kind, obu);
                    let mut widths = vec![0; list.len()];
                    widths[at] = width;
                    let label = if width == 0 {
                        format!("no size, content of {class}, {with}")
                    } else {
                        format!("width {width}, {class}, {with}")
                    };
                    let form = match width {
                        0 => "no size",
                        _ if width == shortest(size as u64) => "the shortest form",
                        _ => "a longer form",
                    };
                    one(suite, caller, &list, &widths, &[&label, form]);
                }
            }
        }
    }
}

/// Lists whose OBUs have widths in every order.
fn neighbours(suite: &mut Suite, caller: &mut Caller) {
    for first in 0..=8 {
        for second in 0..=8 {
            for third in 0..=8 {
                let list = vec![
                    build(2, 0, None, first, &[]),
                    build(5, 0, Some(0x21), second, &[1, 2, 3]),
                    build(6, 1, None, third, &[0, 0, 1]),
                ];
                let mut more = Vec::new();
                if first != second && second != third {
                    more.push("a width unlike that of the OBU before");
                }
                if third == 0 {
                    more.push("the last width is 0");
                }
                one(suite, caller, &list, &[first, second, third], &more);
            }
        }
    }
    // 64 of them, the widths going round.
    let mut list: List = (0..63)
        .map(|at| build(15, 0, None, at % 9, &[0xAA; 5]))
        .collect();
    list.push(build(6, 0, None, 4, &[0; 300]));
    let mut widths: Vec<usize> = (0..63).map(|at| at % 9).collect();
    widths.push(4);
    one(suite, caller, &list, &widths, &["64 OBUs"]);
}

/// All rooms around the boundary.
fn rooms(suite: &mut Suite, caller: &mut Caller, random: &mut Random) {
    for round in 0..100 {
        let most = if round % 10 == 0 { 64 } else { 4 };
        let list = any_list(random, most, 6);
        let carried = carry_closed(random, &list);
        let (bytes, count) = (list.concat().len(), list.len());
        for bytes_room in [bytes.saturating_sub(2), bytes - 1, bytes, bytes + 1] {
            for lengths_room in [0, count - 1, count, count + 1] {
                for widths_room in [0, count - 1, count, count + 1, count + 70] {
                    let rooms = (bytes_room, lengths_room, widths_room);
                    caller.read_widths(suite, &carried, rooms, &[]);
                }
            }
        }
    }
}

/// Every refusal, with room and with none.
fn refusals(suite: &mut Suite, caller: &mut Caller) {
    let frame = vec![0x32, 0x01, 0x66];
    let mut units = vec![
        vec![],
        vec![0, 0],
        vec![0, 0, 0, 1, 0x30],
        carry(&vec![frame.clone(); 65]),
    ];
    for payload in bad_obus().into_iter().chain(illegal_payloads()) {
        units.push(carry(&[payload.clone(), frame.clone()]));
        units.push(carry(&[vec![0x12, 0x80, 0], payload, frame.clone()]));
    }
    for kinds in [
        &[Type(2), Type(2), Type(6)][..],
        &[Type(4)],
        &[Type(6), Type(15)],
        &[ShownAgain, Type(4)],
        &[Type(3), Type(6)],
        &[Type(2)],
        &[Type(3), Type(15)],
    ] {
        let list: List = kinds.iter().map(|&kind| shortest_obu(kind)).collect();
        units.push(carry_list(&list));
    }
    let mut long = carry(&[vec![0x30]]);
    long.resize(MOST_BYTES + 4, 0x55);
    units.push(long.clone());
    long.resize(MOST_CARRIED + 1, 0x55);
    units.push(long);
    for unit in units {
        caller.read_widths_wide(suite, &unit, &[]);
        for rooms in [
            (0, 0, 0),
            (unit.len(), MOST_OBUS, 0),
            (unit.len(), 0, MOST_OBUS),
        ] {
            caller.read_widths(suite, &unit, rooms, &[]);
        }
    }
}

fn run(suite: &mut Suite) {
    let mut caller = Caller::default();

    // The papers' OBU: a longer form than needed counts with its full width.
    let list = vec![vec![0x12, 0x80, 0x00], vec![0x32, 0x82, 0x00, 0xAA, 0xBB]];
    one(suite, &mut caller, &list, &[2, 2], &["worked"]);
    let list = vec![vec![0x12, 0x00], vec![0x30, 0xAA, 0x00, 0x00]];
    one(suite, &mut caller, &list, &[1, 0], &["worked"]);

    classes(suite, &mut caller);
    neighbours(suite, &mut caller);
    let mut random = Random::new(21);
    rooms(suite, &mut caller, &mut random);
    refusals(suite, &mut caller);
    for round in 0..4000 {
        let most = if round % 16 == 0 { 64 } else { 6 };
        let list = any_list(&mut random, most, 20);
        let carried = carry_closed(&mut random, &list);
        caller.read_widths_wide(suite, &carried, &[]);
    }
}
