//! Headers of every kind against a descriptor that agrees, that differs in one field alone, by each
//! value of it, and that differs in two.

use crate::helpers::segment::Caller;
use crate::helpers::sequence::{
    FEATURES, FOUND, Header, another, check, most, obu, unit_of, video, with,
};
use crate::kit::{Definition, Random, Suite, labels};
use reference::comparison::Found;
use reference::sequence;

pub const SUITE: Definition = Definition {
    name: "sequence-fields",
    labels: || labels(&[FEATURES, &FOUND[..9], LABELS].concat()),
    run,
};

const LABELS: &[&str] = &[
    "none found",
    "no descriptor",
    "hdr_wcg_idc is not compared",
    "the delay is not compared",
    "two differ",
    "all differ",
];

fn run(suite: &mut Suite) {
    let mut caller = Caller::default();
    let mut random = Random::new(401);
    for _ in 0..2500 {
        let made = Header::any(&mut random).make(&mut random);
        let content = made.content();
        let read = sequence::read(&content);
        suite.case(&made.features, read == Ok(made.fields), || {
            format!("{made:?} is read as {read:?}")
        });
        let units = [unit_of(&[obu(&mut random, &content)])];
        for hdr_wcg in 0..4 {
            let video = video(&made.fields, hdr_wcg, None);
            let labels = ["hdr_wcg_idc is not compared"];
            check(suite, &mut caller, Some(video), &units, None, &labels);
        }
        let video_with_delay = video(&made.fields, 3, Some(random.below(16) as u8));
        let labels = ["the delay is not compared"];
        let delayed = Some(video_with_delay);
        check(suite, &mut caller, delayed, &units, None, &labels);
        check(suite, &mut caller, None, &units, None, &["no descriptor"]);

        for field in 0..9 {
            for value in 0..=most(field) {
                if value == made.fields[field] {
                    continue;
                }
                let video = video(&with(&made.fields, field, value), 0, None);
                let expected = Some((0, Found::Field(field)));
                check(suite, &mut caller, Some(video), &units, expected, &[]);
            }
        }
        let mut all = made.fields;
        for first in 0..9 {
            all = another(&mut random, &all, first);
            for second in first + 1..9 {
                let one = another(&mut random, &made.fields, first);
                let two = another(&mut random, &one, second);
                let expected = Some((0, Found::Field(first)));
                let video = video(&two, 2, None);
                check(
                    suite,
                    &mut caller,
                    Some(video),
                    &units,
                    expected,
                    &["two differ"],
                );
            }
        }
        let expected = Some((0, Found::Field(0)));
        let video = video(&all, 1, None);
        let labels = ["all differ"];
        check(suite, &mut caller, Some(video), &units, expected, &labels);
    }
}
