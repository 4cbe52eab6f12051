//! Valid units: lists written, and read, checked and walked over in the forms they can have.

use crate::helpers::payload::rooms;
use crate::helpers::unit::{
    Caller, List, any_list, any_obu, carry_closed, carry_list, content, kinds, lengths,
    right_content,
};
use crate::kit::{Definition, Random, Suite, labels};
use reference::obu::{self, Kind::ShownAgain};
use reference::unit;

pub const SUITE: Definition = Definition {
    name: "unit-valid",
    labels: || {
        labels(&[
            "check: accepted",
            "read: accepted",
            "write: accepted",
            "walk: starts",
            "walk: a payload",
            "walk: the end",
            "walk: stays at the end",
            "room exactly enough",
            "room more than enough",
            "8: one byte short",
            "8: no room",
            "8: several bytes short",
            "both rooms exactly enough",
            "one OBU",
            "64 OBUs",
            "closing 03",
            "longer size form",
            "extension byte",
            "no size",
            "1,048,576 bytes in all",
            "shown-again frame",
        ])
    },
    run,
};

/// What a list has.
fn features(list: &List) -> Vec<&'static str> {
    let mut labels = Vec::new();
    match list.len() {
        1 => labels.push("one OBU"),
        64 => labels.push("64 OBUs"),
        _ => {}
    }
    if list.concat().len() == unit::MOST_BYTES {
        labels.push("1,048,576 bytes in all");
    }
    let last = obu::check(&list[list.len() - 1], 0);
    if matches!(last, Ok(checked) if checked.kind == ShownAgain) {
        labels.push("shown-again frame");
    }
    for obu in list {
        let size_at = if obu[0] & 4 != 0 { 2 } else { 1 };
        if obu[0] & 4 != 0 && !labels.contains(&"extension byte") {
            labels.push("extension byte");
        }
        if obu[0] & 2 == 0 && !labels.contains(&"no size") {
            labels.push("no size");
        }
        let longer = obu[0] & 2 != 0 && obu[size_at..].starts_with(&[0x80, 0]);
        if longer && !labels.contains(&"longer size form") {
            labels.push("longer size form");
        }
    }
    labels
}

fn one(suite: &mut Suite, caller: &mut Caller, random: &mut Random, list: &List) {
    let more = features(list);
    let carried = carry_list(list);
    let obus = list.concat();
    for room in rooms(carried.len()) {
        caller.write(suite, &obus, &lengths(list), room, &more);
    }
    let closed = carry_closed(random, list);
    for form in [&carried, &closed] {
        let closing: &[&str] = if form.len() > carried.len() {
            &["closing 03"]
        } else {
            &[]
        };
        let more = [&more, closing].concat();
        caller.check(suite, form, &more);
        caller.read_wide(suite, form, &more);
        caller.read(suite, form, (obus.len(), list.len()), &more);
        // The reference looks at the whole unit for each step.
        if form.len() * list.len() < 4_000_000 {
            caller.walk(suite, form, &more);
        }
    }
}

/// A list of exactly the given number of bytes in all.
fn list_of(random: &mut Random, most: usize, total: usize) -> List {
    let kinds = kinds(random, most);
    let mut left = total;
    let mut list = Vec::new();
    for (index, &kind) in kinds.iter().enumerate() {
        let last = index + 1 == kinds.len();
        let len = if last {
            left - 1
        } else {
            // Header, extension and size take at most 10 bytes; 100 are kept for the others.
            random.length((left - 100 * (kinds.len() - index)).max(1))
        };
        let content = content(random, len);
        // The last has neither extension nor size, and so the length that is left.
        let obu = if last {
            let mut obu = vec![kind.obu_type() * 8];
            obu.extend(right_content(kind, content));
            obu
        } else {
            any_obu(random, kind, content)
        };
        left -= obu.len();
        list.push(obu);
    }
    list
}

fn run(suite: &mut Suite) {
    let mut caller = Caller::default();
    let mut random = Random::new(3);
    for _ in 0..6000 {
        let list = any_list(&mut random, 6, 12);
        one(suite, &mut caller, &mut random, &list);
    }
    for _ in 0..1500 {
        let list = any_list(&mut random, 64, 8);
        one(suite, &mut caller, &mut random, &list);
    }
    for _ in 0..200 {
        let list = any_list(&mut random, 5, 2000);
        one(suite, &mut caller, &mut random, &list);
    }
    for _ in 0..12 {
        let total = 70_000 + random.length(unit::MOST_BYTES - 70_000);
        let list = list_of(&mut random, 64, total);
        one(suite, &mut caller, &mut random, &list);
    }
    for most in [2, 5, 20, 64] {
        let list = list_of(&mut random, most, unit::MOST_BYTES);
        one(suite, &mut caller, &mut random, &list);
    }
}
