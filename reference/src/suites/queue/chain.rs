//! Sends one after the other, each with the counters that the one before handed back: together they
//! are one segment.

use crate::helpers::queue::{Session, VIDEO, any_channel, any_unit, carried};
use crate::helpers::segment::{refused_by, wide};
use crate::kit::{Definition, Random, Suite, labels};
use av1ts::queue::Channel;
use reference::packet::SIZE;
use reference::queue::send::PCR_END;

pub const SUITE: Definition = Definition {
    name: "send-chain",
    labels: || {
        labels(&[
            "sent",
            "two sends as one segment",
            "several sends as one segment",
            "an empty send between",
            "the AV1 counter passes 15",
            "the PAT's counter passes 15",
            "accepted",
            "a counter that does not go on",
            "another program",
            "another descriptor",
            "24: AV1 PID, without payload",
            "25: later section not equal",
            "26: later section not equal",
        ])
    },
    run,
};

fn chain(suite: &mut Suite, random: &mut Random, sends: usize) {
    let mut session = Session::new(30_000);
    let first = any_channel(random);
    let mut channel = first;
    let mut bytes = Vec::new();
    let mut units = Vec::new();
    let mut labels = vec![match sends {
        2 => "two sends as one segment",
        _ => "several sends as one segment",
    }];
    for index in 0..sends {
        for _ in 0..random.below(9) {
            let longest = random.pick(&[10, 100, 600]);
            let unit = any_unit(random, longest);
            session.add(suite, &unit, &[]);
        }
        if session.model.units.is_empty() && index > 0 && index + 1 < sends {
            labels.push("an empty send between");
        }
        units.extend(carried(&session.model));
        let sent = session.send_wide(suite, &channel, &[]);
        let sent = sent.expect("it can be sent");
        bytes.extend(sent.bytes);
        if channel.av1_counter > sent.next.av1_counter {
            labels.push("the AV1 counter passes 15");
        }
        if channel.pat_counter == 15 {
            labels.push("the PAT's counter passes 15");
        }
        channel = Channel {
            // A later PCR, or any.
            pcr: random.next() % PCR_END,
            pat_counter: sent.next.pat_counter,
            map_counter: sent.next.map_counter,
            av1_counter: sent.next.av1_counter,
            ..first
        };
    }
    session.accepted(suite, &first, &bytes, &units, &labels);
    that_does_not_go_on(suite, random, &mut session, &first, &channel, bytes);
}

/// One more send that does not continue: refused at its first packets, or where it differs.
fn that_does_not_go_on(
    suite: &mut Suite,
    random: &mut Random,
    session: &mut Session,
    first: &Channel,
    channel: &Channel,
    mut bytes: Vec<u8>,
) {
    let unit = any_unit(random, 30);
    let mut other = *channel;
    let mut video = VIDEO;
    let (label, number) = match random.below(3) {
        0 => {
            other.av1_counter = (channel.av1_counter + 2 + random.below(14) as u64) % 16;
            ("a counter that does not go on", 24)
        }
        1 => {
            other.program = first.program ^ 0x100 | 1;
            ("another program", 25)
        }
        _ => {
            video[3] ^= 1;
            ("another descriptor", 26)
        }
    };
    if other.program == first.program && number == 25 {
        return;
    }
    session.add(suite, &unit, &[]);
    let sent = session.send(suite, &other, &video, 100 * SIZE, &[]);
    bytes.extend(sent.expect("it can be sent").bytes);
    let rooms = wide(&bytes);
    session
        .check
        .check_as(suite, &bytes, rooms, &[label], |verdict| {
            refused_by(verdict, number)
        });
}

fn run(suite: &mut Suite) {
    let mut random = Random::new(505);
    for round in 0..1500 {
        let sends = match round % 3 {
            0 => 2,
            _ => 3 + random.below(6),
        };
        chain(suite, &mut random, sends);
    }
}
