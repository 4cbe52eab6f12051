//! Scripts of hundreds of operations, the total asked after each, refused or not.

use crate::helpers::queue::{CHANNEL, Session, VIDEO, any_channel, any_unit, plain, queued, total};
use crate::kit::{Definition, Random, Suite, labels};
use reference::queue::{
    DTS_TOO_LONG, FULL, MOST_TIME, NOT_ACCEPTED, PTS_TOO_LONG, STORE_TOO_SHORT,
};

pub const SUITE: Definition = Definition {
    name: "queue-total",
    labels: || {
        labels(&[
            "of a fresh queue",
            "after add",
            "after a refused add",
            "after drop",
            "after drop of nothing",
            "after clear",
            "after send",
            "after a refused send",
            "0 units",
            "1 unit",
            "8 units",
            "asked twice",
            FULL,
            NOT_ACCEPTED,
            PTS_TOO_LONG,
            DTS_TOO_LONG,
            STORE_TOO_SHORT,
            "8: output too short",
            "52: descriptor",
        ])
    },
    run,
};

/// Asks for the total, which must be the sum, twice.
fn ask(suite: &mut Suite, session: &Session, label: &str) {
    let units = match session.model.units.len() {
        0 => "0 units",
        1 => "1 unit",
        8 => "8 units",
        _ => "2 to 7 units",
    };
    let sum = session.model.total();
    for again in [label, "asked twice"] {
        let got = total(session.queue);
        suite.case(&[again, units], got == sum, || {
            format!("{:?}: expected {sum}, got {got}", session.queue)
        });
    }
}

fn one(suite: &mut Suite, random: &mut Random, room: usize, longest: usize) {
    let mut session = Session::new(room);
    ask(suite, &session, "of a fresh queue");
    for _ in 0..100 + random.below(500) {
        let label = match random.below(20) {
            0..=10 => {
                let mut unit = any_unit(random, longest);
                match random.below(16) {
                    0 => unit.pts += MOST_TIME + 1,
                    1 => unit.dts += MOST_TIME + 1,
                    2 => unit.bytes.push(0x01),
                    3 => unit.bytes.clear(),
                    4 => unit.bytes = plain(4 + room - session.total()),
                    _ => {}
                }
                if session.add(suite, &unit, &[]) {
                    "after add"
                } else {
                    "after a refused add"
                }
            }
            11..=14 => {
                let empty = session.model.units.is_empty();
                session.drop_oldest(suite, &[]);
                if empty {
                    "after drop of nothing"
                } else {
                    "after drop"
                }
            }
            15 => {
                session.clear(suite, &[]);
                "after clear"
            }
            16 => {
                let channel = any_channel(random);
                session.send(suite, &channel, &VIDEO[..5], 100_000, &[]);
                "after a refused send"
            }
            17 => {
                let channel = any_channel(random);
                let room = random.below(3 * 188);
                session.send(suite, &channel, &VIDEO, room, &[]);
                "after a refused send"
            }
            _ => {
                let channel = any_channel(random);
                session.send_wide(suite, &channel, &[]);
                "after send"
            }
        };
        ask(suite, &session, label);
    }
}

fn run(suite: &mut Suite) {
    let mut random = Random::new(507);
    for round in 0..300 {
        let (room, longest) = match round % 3 {
            0 => (random.below(200), 12),
            1 => (2000 + random.below(2000), 100),
            _ => (random.below(1000), 30),
        };
        one(suite, &mut random, room, longest);
    }

    // Long units, whose sum passes 16 bits and 20.
    let mut session = Session::new(3_000_000);
    for _ in 0..8 {
        session.add(suite, &queued(plain(300_000)), &[]);
        ask(suite, &session, "after add");
    }
    for _ in 0..5 {
        session.drop_oldest(suite, &[]);
        ask(suite, &session, "after drop");
    }
    session.send_wide(suite, &CHANNEL, &[]);
    ask(suite, &session, "after send");
}
