//! Several headers in a unit and in several units: the first in stream order that disagrees or is
//! cut short; and what is not compared.

use crate::helpers::segment::{Caller, refused_by, wide};
use crate::helpers::sequence::{
    Expected, FOUND, Header, Made, another, check, is, obu, packets, registered, unit_of, video,
};
use crate::helpers::unit::{carry, carry_closed, content, right_content};
use crate::kit::{Definition, Random, Suite, labels};
use reference::comparison::Found;
use reference::compose::{Packet, segment};
use reference::edition::DRAFT_REGISTRATION;
use reference::obu::Kind::Type;
use reference::payload::escaped;
use reference::sequence::Fields;

pub const SUITE: Definition = Definition {
    name: "sequence-units",
    labels: || labels(&[&FOUND[..], LABELS].concat()),
    run,
};

const LABELS: &[&str] = &[
    "two headers in one unit",
    "only the second header of a unit",
    "only the second unit",
    "the last of 1,024 units",
    "a later one differs in a lower field",
    "cut short behind one that differs",
    "one that differs behind one cut short",
    "every header agrees",
    "no header",
    "no unit",
    "no descriptor",
    "under draft",
    "other types are not compared",
    "any bits",
    "a header with bytes inserted",
    "a closing 03 behind the header",
    "refused: nothing is compared",
];

/// A header of the stream, and what its comparison with the stream's descriptor is.
struct One {
    content: Vec<u8>,
    found: Option<Found>,
}

/// The header that agrees, or one that differs in a field, or that is cut short.
fn any_one(random: &mut Random, base: &Header, fields: &Fields, agree_one_in: usize) -> One {
    let made = base.make(random);
    assert!(made.fields == *fields);
    if random.below(agree_one_in) != 0 {
        return One {
            content: made.content(),
            found: None,
        };
    }
    if random.one_in(2) {
        let whole = made.content();
        let count = 1 + random.below((made.need - 1) / 8);
        return One {
            content: whole[..count].to_vec(),
            found: Some(Found::CutShort),
        };
    }
    let other = Header::any(random).make(random);
    One {
        content: other.content(),
        found: first_difference(&other, fields),
    }
}

fn first_difference(made: &Made, fields: &Fields) -> Option<Found> {
    let differs = |&at: &usize| made.fields[at] != fields[at];
    (0..9).find(differs).map(Found::Field)
}

/// What a stream of so many units has: of each header its unit, its place there and what is found.
fn stream_labels(all: &[(usize, usize, Option<Found>)], units: usize) -> Vec<&'static str> {
    let found: Vec<_> = all.iter().filter(|(_, _, found)| found.is_some()).collect();
    let mut labels = Vec::new();
    if all.iter().any(|(_, place, _)| *place > 0) {
        labels.push("two headers in one unit");
    }
    match found[..] {
        [] if units == 0 => labels.push("no unit"),
        [] if all.is_empty() => labels.push("no header"),
        [] => labels.push("every header agrees"),
        [&(0, place, _)] if place > 0 => labels.push("only the second header of a unit"),
        [&(1, _, _)] => labels.push("only the second unit"),
        [
            &(_, _, Some(Found::Field(first))),
            ..,
            &(_, _, Some(Found::Field(last))),
        ] if last < first => {
            labels.push("a later one differs in a lower field");
        }
        [
            &(_, _, Some(Found::Field(_))),
            &(_, _, Some(Found::CutShort)),
            ..,
        ] => {
            labels.push("cut short behind one that differs");
        }
        [
            &(_, _, Some(Found::CutShort)),
            &(_, _, Some(Found::Field(_))),
            ..,
        ] => {
            labels.push("one that differs behind one cut short");
        }
        _ => {}
    }
    labels
}

/// A stream of some units, each with some headers.
fn any_stream(suite: &mut Suite, caller: &mut Caller, random: &mut Random) {
    let base = Header::any(random);
    let fields = base.make(random).fields;
    let agree = random.pick(&[2, 5, 20]);
    let mut units = Vec::new();
    let mut all = Vec::new();
    for index in 0..random.below(6) {
        let mut headers = Vec::new();
        for place in 0..random.pick(&[0, 0, 1, 1, 1, 2, 3]) {
            let one = any_one(random, &base, &fields, agree);
            headers.push(obu(random, &one.content));
            all.push((index, place, one.found));
        }
        units.push(unit_of(&headers));
    }
    let expected: Expected = all
        .iter()
        .find_map(|&(unit, _, found)| found.map(|found| (unit, found)));
    let labels = stream_labels(&all, units.len());
    let video = video(&fields, random.below(4) as u8, None);
    check(suite, caller, Some(video), &units, expected, &labels);
    check(suite, caller, None, &units, None, &["no descriptor"]);
    // "tag 0x80 is not interpreted (2026-04 answers none)"
    let bytes = segment(&registered(&DRAFT_REGISTRATION, Some(video), &units));
    let labels = ["under draft"];
    caller.check_edition(suite, 1, &bytes, wide(&bytes), &labels, |verdict| {
        is(verdict, None)
    });

    // The same with a fault at the last packet: all but number and place is 0.
    let mut wrong = packets(Some(video), &units);
    let mut last = Packet::null();
    last.patches.push((0, 0x46));
    wrong.push(last);
    let bytes = segment(&wrong);
    let labels = ["refused: nothing is compared"];
    caller.check_wide_as(suite, &bytes, &labels, |verdict| refused_by(verdict, 21));
}

/// 1,024 units of which one disagrees.
fn many(suite: &mut Suite, caller: &mut Caller, random: &mut Random) {
    for at in [0, 1, 255, 256, 511, 1022, 1023] {
        let base = Header::any(random);
        let made = base.make(random);
        let agreeing = unit_of(&[obu(random, &made.content())]);
        let mut units = vec![agreeing; 1024];
        let field = random.below(9);
        let fields = another(random, &made.fields, field);
        let labels = ["the last of 1,024 units"];
        // The descriptor is the other way round: every unit but one differs from it.
        let video_of_one = video(&fields, 0, None);
        let expected: Expected = Some((0, Found::Field(field)));
        check(suite, caller, Some(video_of_one), &units, expected, &[]);
        let whole = made.content();
        units[at] = unit_of(&[obu(random, &whole[..(made.need - 1) / 8])]);
        let expected = Some((at, Found::CutShort));
        let video = video(&made.fields, 0, None);
        let labels = if at == 1023 { &labels[..] } else { &[] };
        check(suite, caller, Some(video), &units, expected, labels);
    }
}

fn run(suite: &mut Suite) {
    let mut caller = Caller::default();
    let mut random = Random::new(403);
    for _ in 0..15_000 {
        any_stream(suite, &mut caller, &mut random);
    }
    many(suite, &mut caller, &mut random);
    other_forms(suite, &mut caller, &mut random);
    any_bits(suite, &mut caller, &mut random);
    // A segment without unit, and without descriptor.
    let bytes = segment(&packets(None, &[]));
    caller.check_wide_as(suite, &bytes, &["no unit"], |verdict| is(verdict, None));
}

/// Other types, and payloads with inserted bytes or a closing 03.
fn other_forms(suite: &mut Suite, caller: &mut Caller, random: &mut Random) {
    for _ in 0..3000 {
        let made = Header::any(random).make(random);
        let content_bytes = made.content();
        let fields = another(random, &made.fields, 1);
        // The bytes of a header in OBUs of other types.
        let mut list = Vec::new();
        for obu_type in [0, 5, 9, 14, 15] {
            let obu = [&[obu_type * 8], &content_bytes[..]].concat();
            list.push(escaped(&obu));
        }
        list.push(escaped(&[&[0x30], &content_bytes[..]].concat()));
        let units = [carry(&list)];
        let video_of_other = Some(video(&fields, 0, None));
        let labels = ["other types are not compared"];
        check(suite, caller, video_of_other, &units, None, &labels);

        // Frames rich in zeros with a header, whose payload may have a closing 03.
        let header = obu(random, &content_bytes);
        let inserted = escaped(&header).len() > header.len();
        let ends = header.ends_with(&[0, 0]);
        let unit = carry_closed(random, &vec![header, vec![0x30, 0, 0]]);
        let mut labels = Vec::new();
        if inserted {
            labels.push("a header with bytes inserted");
        }
        let agreeing = Some(video(&made.fields, 0, None));
        if !ends {
            check(suite, caller, agreeing, &[unit], None, &labels);
        }
        // Zeros behind the header, then the closing 03.
        let zeros = [&content_bytes[..], &[0, 0]].concat();
        let mut payload = escaped(&[&[0x08], &zeros[..]].concat());
        payload.push(3);
        let unit = carry(&[payload, vec![0x30]]);
        let labels = ["a closing 03 behind the header"];
        check(suite, caller, agreeing, &[unit], None, &labels);
    }
}

/// Any bits as a header, the fields of the descriptor near what they say.
fn any_bits(suite: &mut Suite, caller: &mut Caller, random: &mut Random) {
    for _ in 0..60_000 {
        let len = 1 + random.length(40);
        let bytes = match random.below(3) {
            0 => content(random, len),
            _ => random.fill(len, |random| random.next() as u8),
        };
        let bytes = right_content(Type(1), bytes);
        let fields = match reference::sequence::read(&bytes) {
            Ok(fields) if random.one_in(2) => fields,
            _ => Header::any(random).make(random).fields,
        };
        let units = [unit_of(&[obu(random, &bytes)])];
        let bytes = segment(&packets(Some(video(&fields, 0, None)), &units));
        caller.check_wide(suite, &bytes, &["any bits"]);
    }
}
