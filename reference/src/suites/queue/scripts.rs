//! Scripts of operations, any after any.

use crate::helpers::queue::{
    CHANNEL, Session, VIDEO, any_channel, any_time, any_unit, plain, queued,
};
use crate::kit::{Definition, Random, Suite, labels};
use reference::queue::{
    DTS_TOO_LONG, FULL, MOST_QUEUED, MOST_TIME, NOT_ACCEPTED, PTS_TOO_LONG, Queued, STORE_TOO_SHORT,
};
use reference::refusal::OUTPUT_TOO_SHORT;

pub const SUITE: Definition = Definition {
    name: "queue-scripts",
    labels: || {
        labels(&[
            "added",
            "dropped",
            "nothing to drop",
            "cleared",
            "sent",
            FULL,
            NOT_ACCEPTED,
            PTS_TOO_LONG,
            DTS_TOO_LONG,
            STORE_TOO_SHORT,
            OUTPUT_TOO_SHORT,
            "52: AV1 counter above 15",
            "clearing an empty queue",
            "sending an empty queue",
            "sending 1 unit",
            "sending 8 units",
            "dropping the last one",
            "the store is exactly full",
            "room used again after a drop",
            "room used again after a send",
            "room used again after clear",
            "a drop between adds",
        ])
    },
    run,
};

/// What freed the room that the next unit may take.
#[derive(Clone, Copy, PartialEq)]
enum Freed {
    Nothing,
    Drop,
    Send,
    Clear,
}

impl Freed {
    /// The label of a unit that takes that room, where so many bytes are still queued.
    fn label(self, queued: usize) -> &'static str {
        match self {
            Freed::Nothing => "room not used",
            Freed::Drop if queued > 0 => "a drop between adds",
            Freed::Drop => "room used again after a drop",
            Freed::Send => "room used again after a send",
            Freed::Clear => "room used again after clear",
        }
    }
}

/// A unit that is right, or wrong in some way, or as long as what is left of the store.
fn right_or_wrong(random: &mut Random, longest: usize, left: usize) -> Queued {
    let mut unit = any_unit(random, longest);
    match random.below(24) {
        0 => unit.pts = MOST_TIME + 1 + any_time(random),
        1 => unit.dts = MOST_TIME + 1 + any_time(random),
        2 => unit.bytes.push(0x01),
        3 => unit.bytes.truncate(3),
        4 if left >= 4 => unit.bytes = plain(left),
        5 if left >= 4 => unit.bytes = plain(left + 1),
        _ => {}
    }
    unit
}

fn one(suite: &mut Suite, random: &mut Random, room: usize, longest: usize, steps: usize) {
    let mut session = Session::new(room);
    let mut freed = Freed::Nothing;
    // The highest place of the store that a unit has reached.
    let mut reached = 0;
    for _ in 0..steps {
        match random.below(16) {
            0..=8 => {
                let unit = right_or_wrong(random, longest, room - session.total());
                let end = session.total() + unit.bytes.len();
                let mut labels = Vec::new();
                if end <= reached {
                    labels.push(freed.label(session.total()));
                }
                if end == room {
                    labels.push("the store is exactly full");
                }
                session.add(suite, &unit, &labels);
                reached = reached.max(session.total());
            }
            9..=11 => {
                let labels: &[&str] = match session.model.units.len() {
                    1 => &["dropping the last one"],
                    _ => &[],
                };
                session.drop_oldest(suite, labels);
                freed = Freed::Drop;
            }
            12 => {
                let labels: &[&str] = match session.model.units.len() {
                    0 => &["clearing an empty queue"],
                    _ => &[],
                };
                session.clear(suite, labels);
                freed = Freed::Clear;
            }
            13 => {
                let mut channel = any_channel(random);
                channel.av1_counter = 16 + random.below(3) as u64;
                session.send(suite, &channel, &VIDEO, 100_000, &[]);
            }
            14 => {
                let channel = any_channel(random);
                session.send(suite, &channel, &VIDEO, random.below(3) * 188 + 187, &[]);
            }
            _ => {
                let label = match session.model.units.len() {
                    0 => "sending an empty queue",
                    1 => "sending 1 unit",
                    MOST_QUEUED => "sending 8 units",
                    _ => "sending units",
                };
                let channel = any_channel(random);
                session.send_wide(suite, &channel, &[label]);
                freed = Freed::Send;
            }
        }
    }
}

fn run(suite: &mut Suite) {
    let mut random = Random::new(501);
    for round in 0..1200 {
        let (room, longest) = match round % 6 {
            0 => (random.below(30), 4),
            1 => (random.below(300), 12),
            2 => (random.below(2000), 60),
            3 => (20_000, 300),
            4 => (3000 + random.below(20_000), 2000),
            _ => (random.below(600), 40),
        };
        one(suite, &mut random, room, longest, 60);
    }

    // Nine adds, then drops and adds in turn, so that every unit moves through every place.
    let mut session = Session::new(1000);
    for length in 0..9 {
        session.add(suite, &queued(plain(4 + length)), &[]);
    }
    for length in 0..40 {
        session.drop_oldest(suite, &[]);
        session.add(suite, &queued(plain(30 + length)), &[]);
    }
    session.send_wide(suite, &CHANNEL, &["sending 8 units"]);
}
