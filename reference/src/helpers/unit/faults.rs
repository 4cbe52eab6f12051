//! Every rule that an input breaks, whatever is tried first: with it a case knows which refusals
//! stand behind the one that is given.

use reference::{obu, order, payload, unit};

/// A rule that is broken, with the OBU's index where it is a rule of one OBU.
#[derive(Clone, Copy, Debug, PartialEq, Eq)]
pub struct Fault {
    pub rule: &'static str,
    pub index: Option<usize>,
}

fn whole(rule: &'static str) -> Fault {
    Fault { rule, index: None }
}

/// The rules 4, 5, 6 and 42 that one OBU breaks, each looked at by itself.
fn obu_faults(bytes: &[u8], index: usize) -> Vec<Fault> {
    let mut faults = Vec::new();
    let mut add = |rule| {
        faults.push(Fault {
            rule,
            index: Some(index),
        })
    };
    let first = match bytes.first() {
        Some(&first) => first,
        _ => return faults,
    };
    let header = obu::header(first);
    if header.forbidden || (header.extension && bytes.len() < 2) {
        add("4");
    }
    let (content, size_is_wrong) = content(bytes);
    if size_is_wrong || (header.obu_type == obu::TEMPORAL_DELIMITER && !content.is_empty()) {
        add("5");
    }
    if header.obu_type == obu::TILE_LIST {
        add("6");
    }
    if obu::wrong_content(header.obu_type, content).is_some() {
        add("42");
    }
    faults
}

/// What stands behind an OBU's header, extension byte and size, as far as they are there; and
/// whether its size is wrong.
fn content(bytes: &[u8]) -> (&[u8], bool) {
    let (first, mut rest) = match bytes.split_first() {
        Some((&first, rest)) => (first, rest),
        _ => return (&[], false),
    };
    let header = obu::header(first);
    if header.extension && !rest.is_empty() {
        rest = &rest[1..];
    }
    if !header.has_size {
        return (rest, false);
    }
    match obu::leb128(rest) {
        Err(_) => (rest, true),
        Ok(size) => {
            rest = &rest[size.width..];
            (rest, size.value != rest.len() as u64)
        }
    }
}

fn order_is_broken(obus: &[Vec<u8>]) -> bool {
    let mut kinds = Vec::new();
    for obu in obus {
        if let Some(&first) = obu.first() {
            kinds.push(obu::Kind::new(obu::header(first).obu_type, content(obu).0));
        }
    }
    order::check(&kinds).is_err()
}

/// The rules of reading that a unit breaks, in the order of tries. "2 carried" and "2 sum" are the
/// two places of 2.
pub fn reading(carried: &[u8], bytes_room: usize, lengths_room: usize) -> Vec<Fault> {
    let mut faults = Vec::new();
    if carried.len() > unit::MOST_CARRIED {
        faults.push(whole("2 carried"));
    }
    if !carried.starts_with(&unit::START_CODE) {
        faults.push(whole("9"));
    }
    let parts = unit::payloads(carried);
    if parts.len() > unit::MOST_OBUS {
        faults.push(whole("1"));
    }
    let mut obus = Vec::new();
    for (index, part) in parts.into_iter().enumerate() {
        let payload = &carried[part];
        if payload.is_empty() {
            faults.push(Fault {
                rule: "3",
                index: Some(index),
            });
        }
        if payload::first_forbidden(payload).is_some() {
            faults.push(Fault {
                rule: "10",
                index: Some(index),
            });
        }
        let obu = payload::unescaped(payload).obu;
        faults.extend(obu_faults(&obu, index));
        obus.push(obu);
    }
    let sum: usize = obus.iter().map(|obu| obu.len()).sum();
    if sum > unit::MOST_BYTES {
        faults.push(whole("2 sum"));
    }
    if order_is_broken(&obus) {
        faults.push(whole("7"));
    }
    if sum > bytes_room || obus.len() > lengths_room {
        faults.push(whole("8"));
    }
    faults
}

/// The rules of writing that a list breaks, in the order of tries.
pub fn writing(bytes: &[u8], lengths: &[usize], room: usize) -> Vec<Fault> {
    let mut faults = Vec::new();
    if lengths.is_empty() || lengths.len() > unit::MOST_OBUS {
        faults.push(whole("1"));
    }
    let sum: u128 = lengths.iter().map(|&length| length as u128).sum();
    if sum != bytes.len() as u128 || bytes.len() > unit::MOST_BYTES {
        faults.push(whole("2"));
    }
    let mut obus = Vec::new();
    let mut rest = bytes;
    let mut need = 0;
    for (index, &length) in lengths.iter().enumerate() {
        let (obu, after) = rest.split_at(length.min(rest.len()));
        rest = after;
        if obu.is_empty() {
            faults.push(Fault {
                rule: "3",
                index: Some(index),
            });
        }
        faults.extend(obu_faults(obu, index));
        need += unit::START_CODE.len() + payload::escaped(obu).len();
        obus.push(obu.to_vec());
    }
    if order_is_broken(&obus) {
        faults.push(whole("7"));
    }
    if need > room {
        faults.push(whole("8"));
    }
    faults
}

/// What the first fault comes before: a label for each of the others.
pub fn pairs(what: &str, faults: &[Fault]) -> Vec<String> {
    let (first, others) = match faults.split_first() {
        Some((first, others)) => (first, others),
        _ => return Vec::new(),
    };
    let mut labels = Vec::new();
    for other in others {
        let within = match (first.index, other.index) {
            (Some(i), Some(j)) if i == j => " in one OBU",
            (Some(_), Some(_)) => " in a later OBU",
            _ => "",
        };
        let label = format!("{what}: {} before {}{within}", first.rule, other.rule);
        if !labels.contains(&label) {
            labels.push(label);
        }
    }
    labels
}

/// The pairs that can stand together, of reading or of writing. `before` and `after` are the rules
/// of the whole tried before and after the OBUs, `each` those of one OBU; in one OBU 3 stands alone,
/// and 6 and 42 are of different types.
pub fn all_pairs(what: &str, before: &[&str], each: &[&str], after: &[&str]) -> Vec<String> {
    let mut labels = Vec::new();
    let order = [before, each, after].concat();
    for (i, first) in order.iter().enumerate() {
        for second in &order[i + 1..] {
            if each.contains(first) && each.contains(second) {
                if *first != "3" && (*first, *second) != ("6", "42") {
                    labels.push(format!("{what}: {first} before {second} in one OBU"));
                }
            } else {
                labels.push(format!("{what}: {first} before {second}"));
            }
        }
    }
    for first in each {
        for second in each {
            labels.push(format!("{what}: {first} before {second} in a later OBU"));
        }
    }
    labels
}
