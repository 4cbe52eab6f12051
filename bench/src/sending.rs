//! Sending eight units of 128 KiB.

use crate::access_unit::Units;
use crate::input::{Clip, Kind};
use crate::measure::{Case, Outputs, Peer, Plan, Row, copy, touched};
use crate::multiplex::PACKET_BYTES;
use crate::peers::plain;
use av1ts::queue::{Channel, Queue, Sent, add, send};

const UNITS: usize = 8;
const UNIT_BYTES: usize = 128 * 1024;
const ROOM: usize = 2 * UNITS * UNIT_BYTES;
const DESCRIPTOR: [u8; 6] = [0x80, 0x04, 0x81, 0x08, 0x0C, 0xC0];

/// A full queue with its store.
struct Full {
    queue: Queue,
    store: Vec<u8>,
}

impl AsRef<[u8]> for Full {
    fn as_ref(&self) -> &[u8] {
        &self.store
    }
}

pub fn measure(plan: &Plan, clip: &Clip, rows: &mut Vec<Row>) -> Result<(), String> {
    for kind in [Kind::Random, Kind::RealAv1] {
        rows.push(row(plan, kind, full(kind, clip)?)?);
    }
    Ok(())
}

fn full(kind: Kind, clip: &Clip) -> Result<Full, String> {
    let mut store = touched(ROOM);
    let mut queue = Queue::default();
    for (unit, number) in Units::new(UNITS, kind, UNIT_BYTES, clip)
        .carried
        .iter()
        .zip(0..)
    {
        let time = 3_600 * number;
        let added = add(queue, &mut store, unit, time, time, false);
        if added.number != 0 {
            return Err(format!("add refuses by {}", added.number));
        }
        queue = added.queue;
    }
    store.truncate(queue.total as usize);
    Ok(Full { queue, store })
}

fn row(plan: &Plan, kind: Kind, full: Full) -> Result<Row, String> {
    let names = ["queue_send", kind.name(), "8 units of 128 KiB"];
    let case = Case::of_segment(plan, names, &full);
    let mut out = Outputs::touched(ROOM, 0);
    let gives = sent(&full, &mut out);
    let packets = into_packets(&full, &mut out) / PACKET_BYTES;
    if gives.number != 0 || (gives.packets as usize) < packets {
        return Err(format!("send gives {gives:?}, the loop {packets} packets"));
    }
    let peers = vec![
        (Peer::PlainC, case.run(&into_packets)),
        (Peer::Memcpy, case.run(&copy)),
    ];
    Ok(case.row(&mut out, case.run(&sent), peers))
}

fn sent(full: &Full, out: &mut Outputs) -> Sent {
    let channel = Channel {
        program: 1,
        map_pid: 0x0100,
        av1_pid: 0x0101,
        ..Channel::default()
    };
    send(
        full.queue,
        &full.store,
        channel,
        &DESCRIPTOR,
        &mut out.bytes,
    )
}

fn into_packets(full: &Full, out: &mut Outputs) -> usize {
    plain::copy_into_packets(&full.store, &mut out.bytes)
}
