//! 2026-01: the queue of units, and sending them.

use super::{MOST_CARRIED, MOST_PACKETS, Refused, refusal};
use av1ts::queue::{Channel, Queue, add, send};

/// The most units that a queue has.
pub const MOST_QUEUED: usize = 8;

/// A queue with its store, and the channel that it is sent on.
pub struct Sender {
    queue: Queue,
    store: Vec<u8>,
    pub channel: Channel,
    descriptor: Vec<u8>,
    out: Vec<u8>,
}

pub use av1ts::queue::Channel as SenderChannel;

impl Sender {
    pub fn new(channel: Channel, descriptor: Vec<u8>) -> Sender {
        Sender {
            queue: Queue::default(),
            store: vec![0; MOST_QUEUED * MOST_CARRIED],
            channel,
            descriptor,
            out: vec![0; MOST_PACKETS * 188],
        }
    }

    pub fn queued(&self) -> usize {
        self.queue.units as usize
    }

    /// Puts a unit behind the queued ones.
    pub fn add(&mut self, unit: &[u8], pts: u64, dts: u64, marked: bool) -> Result<(), Refused> {
        let answer = add(self.queue, &mut self.store, unit, pts, dts, marked);
        refusal(answer.number, answer.place)?;
        self.queue = answer.queue;
        Ok(())
    }

    /// The packets of the queued units; the queue is then empty.
    pub fn send(&mut self) -> Result<Vec<u8>, Refused> {
        let answer = send(
            self.queue,
            &self.store,
            self.channel,
            &self.descriptor,
            &mut self.out,
        );
        refusal(answer.number, answer.place)?;
        self.queue = answer.queue;
        self.channel = answer.next;
        Ok(self.out[..answer.bytes as usize].to_vec())
    }
}
