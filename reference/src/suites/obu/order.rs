//! The order rule and the place of 7: step by step, against "is there any legal continuation" by
//! brute force, on all lists of kinds up to five, without the library.

use crate::helpers::obu::KINDS;
use crate::kit::{Definition, Suite, labels};
use reference::obu::Kind::{self, ShownAgain, Type};
use reference::order;

pub const SUITE: Definition = Definition {
    name: "order",
    labels: || labels(&[order::CONDITIONS, LABELS].concat()),
    run,
};

const LABELS: &[&str] = &["legal", "worked"];

const LONGEST: usize = 5;

/// A list of kinds as a number: each is a digit.
fn number(kinds: &[Kind]) -> usize {
    let digit = |kind: &Kind| match kind {
        Type(obu_type) => usize::from(*obu_type),
        ShownAgain => 16,
    };
    kinds
        .iter()
        .fold(0, |number, kind| number * KINDS.len() + digit(kind))
}

fn set_list(kinds: &mut Vec<Kind>, mut number: usize, len: usize) {
    kinds.resize(len, ShownAgain);
    for kind in kinds.iter_mut().rev() {
        *kind = KINDS[number % KINDS.len()];
        number /= KINDS.len();
    }
}

/// For each length and list: does any legal list of up to one more than the longest begin with it?
fn continuable() -> Vec<Vec<bool>> {
    let count = |len: usize| KINDS.len().pow(len as u32);
    let mut table: Vec<Vec<bool>> = (0..=LONGEST + 1)
        .map(|len| vec![false; count(len)])
        .collect();
    let mut kinds = Vec::new();
    for len in 0..=LONGEST + 1 {
        for index in 0..count(len) {
            set_list(&mut kinds, index, len);
            if order::legal(&kinds) {
                for begin in 0..=len {
                    table[begin][number(&kinds[..begin])] = true;
                }
            }
        }
    }
    table
}

/// The place of 7 by that table: the first index with which no legal list begins; the count where
/// every beginning can go on but the list itself is not legal.
fn place_by_force(table: &[Vec<bool>], kinds: &[Kind]) -> Option<usize> {
    for index in 0..kinds.len() {
        if !table[index + 1][number(&kinds[..=index])] {
            return Some(index);
        }
    }
    if order::legal(kinds) {
        None
    } else {
        Some(kinds.len())
    }
}

fn run(suite: &mut Suite) {
    let table = continuable();
    let mut kinds = Vec::new();
    for len in 1..=LONGEST {
        for index in 0..KINDS.len().pow(len as u32) {
            set_list(&mut kinds, index, len);
            let got = order::check(&kinds);
            let label = got
                .as_ref()
                .map_or_else(|refusal| refusal.condition, |_| "legal");
            let place = got
                .as_ref()
                .map_or_else(|refusal| Some(refusal.place as usize), |_| None);
            let forced = place_by_force(&table, &kinds);
            suite.case(&[label], place == forced, || {
                format!("{kinds:?} {place:?} {forced:?}")
            });
        }
    }

    // Lists that the papers name; 16 is a frame shown again.
    for (digits, place) in [
        (&[2][..], Some(1)),
        (&[6, 15], Some(1)),
        (&[3, 4, 15], Some(3)),
        (&[3, 4, 15, 4], None),
        (&[6], None),
        (&[2, 6], None),
        (&[2, 2, 6], Some(1)),
        (&[1, 2, 6], Some(1)),
        (&[15, 6], None),
        (&[3], Some(1)),
        (&[4], Some(0)),
        (&[3, 6], Some(1)),
        (&[16], None),
        (&[2, 16], None),
        (&[2, 1, 15, 16], None),
        (&[16, 4], Some(1)),
        (&[16, 15], Some(1)),
        (&[2, 16, 16], Some(2)),
        (&[3, 16], Some(1)),
        (&[3, 4, 16], Some(2)),
        (&[6, 16], Some(1)),
        (
            &[2, 1, 5, 0, 9, 10, 11, 12, 13, 14, 15, 3, 7, 4, 7, 15, 4],
            None,
        ),
    ] {
        let kinds: Vec<Kind> = digits.iter().map(|&digit| KINDS[digit]).collect();
        let got =
            order::check(&kinds).map_or_else(|refusal| Some(refusal.place as usize), |_| None);
        let passed = got == place && order::legal(&kinds) == place.is_none();
        suite.case(&["worked"], passed, || format!("{kinds:?} {got:?}"));
    }
}
