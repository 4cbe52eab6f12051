//! Refusals of send: by each condition, at its boundary and past it, in pairs, and rooms of the
//! output around the boundary.

use crate::helpers::queue::{CHANNEL, Session, VIDEO, any_channel, any_unit};
use crate::kit::{Definition, Random, Suite, labels};
use av1ts::queue::Channel;
use reference::descriptor::{self, CONDITIONS_40};
use reference::packet::SIZE;
use reference::queue::send::{CONDITIONS, PCR_END};

pub const SUITE: Definition = Definition {
    name: "send-refusals",
    labels: || {
        let mut list = labels(&[
            "sent",
            "8: output too short",
            "52 before 8",
            "two conditions of 52",
            "at the boundary",
            "no room",
            "exactly enough room",
            "one byte short",
            "one packet short",
            "one byte more",
            "the empty descriptor",
            "a descriptor with delay, as given",
            "every descriptor byte changed",
            "the queue is sent after a refusal",
        ]);
        // 53 needs a large queue, in another suite.
        list.extend(labels(&CONDITIONS[..CONDITIONS.len() - 1]));
        for condition in CONDITIONS_40 {
            list.push(format!("52: {condition}"));
        }
        list
    },
    run,
};

/// A channel and a descriptor.
#[derive(Clone)]
struct Given {
    channel: Channel,
    descriptor: Vec<u8>,
}

type Change = Box<dyn Fn(&mut Given)>;

/// Changes that make something not allowed.
fn changes() -> Vec<Change> {
    let mut list: Vec<Change> = Vec::new();
    let mut set = |field: fn(&mut Channel) -> &mut u64, values: &[u64]| {
        for &value in values {
            list.push(Box::new(move |given| *field(&mut given.channel) = value));
        }
    };
    let wrapped = [1 << 13, 1 << 16, 1 << 32, u64::MAX - 0xFFFF].map(|high| high + 0x0456);
    set(|channel| &mut channel.map_pid, &[0, 1, 0x000F]);
    set(|channel| &mut channel.map_pid, &[0x1FFF, 0x2000, u64::MAX]);
    set(|channel| &mut channel.map_pid, &wrapped);
    set(
        |channel| &mut channel.av1_pid,
        &[0, 0x1FFF, 0x2000, u64::MAX],
    );
    set(|channel| &mut channel.av1_pid, &wrapped);
    set(|channel| &mut channel.program, &[0, 0x1_0000, 0x1_0001]);
    set(
        |channel| &mut channel.program,
        &[1 << 32, (1 << 32) + 1, u64::MAX],
    );
    let counters = [16, 17, 31, 256, 1 << 32, u64::MAX];
    set(|channel| &mut channel.pat_counter, &counters);
    set(|channel| &mut channel.map_counter, &counters);
    set(|channel| &mut channel.av1_counter, &counters);
    set(
        |channel| &mut channel.pcr,
        &[PCR_END, PCR_END + 1, 1 << 63, u64::MAX],
    );
    list.push(Box::new(|given| {
        given.channel.av1_pid = given.channel.map_pid
    }));
    list.push(Box::new(|given| {
        given.channel.map_pid = given.channel.av1_pid.max(0x10)
    }));
    for (at, byte) in [
        (0, 0x81),
        (1, 0x05),
        (2, 0x01),
        (2, 0x82),
        (5, 0xE0),
        (5, 0xC1),
    ] {
        list.push(Box::new(move |given| {
            if let Some(old) = given.descriptor.get_mut(at) {
                *old = byte;
            }
        }));
    }
    list.push(Box::new(|given| given.descriptor.clear()));
    list.push(Box::new(|given| given.descriptor.truncate(5)));
    list.push(Box::new(|given| given.descriptor.push(0)));
    list
}

/// Channels that are still allowed.
fn boundaries() -> Vec<Channel> {
    let mut list = Vec::new();
    let mut set = |field: fn(&mut Channel) -> &mut u64, values: &[u64]| {
        for &value in values {
            let mut channel = CHANNEL;
            *field(&mut channel) = value;
            list.push(channel);
        }
    };
    set(|channel| &mut channel.map_pid, &[0x10, 0x11, 0x1FFE]);
    set(
        |channel| &mut channel.av1_pid,
        &[1, 0x0F, 0x10, 0x1FFE, 0x0455, 0x0457],
    );
    set(|channel| &mut channel.program, &[1, 0xFFFF]);
    set(|channel| &mut channel.pat_counter, &[0, 15]);
    set(|channel| &mut channel.map_counter, &[0, 15]);
    set(|channel| &mut channel.av1_counter, &[0, 1, 15]);
    set(|channel| &mut channel.pcr, &[0, 1, 299, 300, PCR_END - 1]);
    list
}

/// A session with some units.
fn filled(suite: &mut Suite, random: &mut Random, units: usize) -> Session {
    let mut session = Session::new(20_000);
    for _ in 0..units {
        let unit = any_unit(random, 200);
        session.add(suite, &unit, &[]);
    }
    session
}

/// The label of a descriptor's own refusal.
fn refusal_of(descriptor: &[u8]) -> Option<String> {
    let refusal = descriptor::read(descriptor).err()?;
    Some(format!("52: {}", refusal.condition))
}

fn run(suite: &mut Suite) {
    let mut random = Random::new(504);
    not_allowed(suite, &mut random);
    // What is still allowed.
    for channel in boundaries() {
        let mut session = filled(suite, &mut random, 2);
        session.send_wide(suite, &channel, &["at the boundary"]);
    }

    descriptors(suite, &mut random);
    rooms(suite, &mut random);
}

/// What is not allowed, and two of it.
fn not_allowed(suite: &mut Suite, random: &mut Random) {
    let right = Given {
        channel: CHANNEL,
        descriptor: VIDEO.to_vec(),
    };
    let changes = changes();
    for units in [0, 1, 8] {
        let mut session = filled(suite, random, units);
        for (index, change) in changes.iter().enumerate() {
            let mut given = right.clone();
            change(&mut given);
            let own = refusal_of(&given.descriptor);
            let mut labels: Vec<&str> = own.iter().map(|own| &own[..]).collect();
            if given.descriptor.is_empty() {
                labels.push("the empty descriptor");
            }
            session.send(suite, &given.channel, &given.descriptor, 100_000, &labels);
            let labels = ["52 before 8"];
            session.send(suite, &given.channel, &given.descriptor, 0, &labels);
            for other in &changes[..index] {
                let mut given = given.clone();
                other(&mut given);
                let labels = ["two conditions of 52"];
                session.send(suite, &given.channel, &given.descriptor, 100_000, &labels);
            }
        }
        // No refusal has changed anything.
        let labels = ["the queue is sent after a refusal"];
        session.send_wide(suite, &CHANNEL, &labels);
    }
}

/// Every value of every byte of the descriptor, most of them not allowed.
fn descriptors(suite: &mut Suite, random: &mut Random) {
    let mut session = Session::new(1000);
    for at in 0..6 {
        for byte in 0..=255 {
            let mut descriptor = VIDEO;
            descriptor[at] = byte;
            if descriptor::read(&descriptor).is_ok() {
                session.add(suite, &any_unit(random, 30), &[]);
            }
            let mut labels = vec!["every descriptor byte changed"];
            if descriptor::read(&descriptor).map_or(false, |video| video.delay.is_some()) {
                labels.push("a descriptor with delay, as given");
            }
            session.send(suite, &CHANNEL, &descriptor, 100_000, &labels);
        }
    }
    let mut delayed = VIDEO;
    delayed[5] = 0xD7;
    session.add(suite, &any_unit(random, 30), &[]);
    let labels = ["a descriptor with delay, as given"];
    session.send(suite, &CHANNEL, &delayed, 100_000, &labels);
}

/// Rooms around the need.
fn rooms(suite: &mut Suite, random: &mut Random) {
    for round in 0..400 {
        let mut session = filled(suite, random, round % 9);
        let channel = any_channel(random);
        let mut copy = session.model.clone();
        let mut need = 3 * SIZE;
        for unit in copy.units.drain(..) {
            let bytes = reference::queue::send::pes(&unit).len();
            let first = if unit.marked { 182 } else { 184 };
            let packets = 1 + (bytes.saturating_sub(first) + 183) / 184;
            need += packets * SIZE;
        }
        for (room, label) in [
            (0, "no room"),
            (need - SIZE, "one packet short"),
            (need - 1, "one byte short"),
            (random.below(need), "short"),
        ] {
            session.send(suite, &channel, &VIDEO, room, &[label]);
        }
        let (room, label) = match round % 2 {
            0 => (need, "exactly enough room"),
            _ => (need + 1, "one byte more"),
        };
        session.send(suite, &channel, &VIDEO, room, &[label]);
    }
}
