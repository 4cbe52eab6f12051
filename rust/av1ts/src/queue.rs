//! The queue of units to send, and sending them.

/// `av1ts_queue`: lengths, times and marks of the queued units, oldest first, and the sum of the
/// lengths. The empty queue is the default. Their bytes stand in the store that is lent to each
/// operation.
#[repr(C)]
#[derive(Clone, Copy, Debug, Default, PartialEq, Eq)]
pub struct Queue {
    pub units: u64,
    pub length: [u64; 8],
    pub pts: [u64; 8],
    pub dts: [u64; 8],
    pub marked: [u64; 8],
    pub total: u64,
}

/// `av1ts_queued`: the queue after an operation; in a refusal the one that was handed in. `empty`
/// is 1 where there was no unit to drop.
#[repr(C)]
#[derive(Clone, Copy, Debug, Default, PartialEq, Eq)]
pub struct Queued {
    pub number: u64,
    pub place: u64,
    pub empty: u64,
    pub queue: Queue,
}

/// `av1ts_channel`: what a send goes by; each counter is that of its PID's next packet with
/// payload.
#[repr(C)]
#[derive(Clone, Copy, Debug, Default, PartialEq, Eq)]
pub struct Channel {
    pub program: u64,
    pub map_pid: u64,
    pub av1_pid: u64,
    pub pcr: u64,
    pub pat_counter: u64,
    pub map_counter: u64,
    pub av1_counter: u64,
}

/// `av1ts_sent`: the bytes and packets written, the channel with the counters that follow, and the
/// empty queue; in a refusal the channel and the queue that were handed in.
#[repr(C)]
#[derive(Clone, Copy, Debug, Default, PartialEq, Eq)]
pub struct Sent {
    pub number: u64,
    pub place: u64,
    pub bytes: u64,
    pub packets: u64,
    pub next: Channel,
    pub queue: Queue,
}

c_functions! {
    /// Puts a unit behind the queued ones, its bytes behind theirs in `store`.
    av1ts_queue_add as add(
        queue: Queue, out store: u8, in unit: u8, pts: u64, dts: u64, flag marked
    ) -> Queued;

    /// Takes out the oldest unit; the bytes of the others move to the front of `store`.
    av1ts_queue_drop as drop_oldest(queue: Queue, out store: u8) -> Queued;

    /// Takes out all units.
    av1ts_queue_clear as clear(queue: Queue) -> Queued;

    /// The bytes that are queued, as the queue has them stored.
    av1ts_queue_total as total(queue: Queue) -> u64;

    /// Writes the packets of all queued units to the front of `out`, which empties the queue.
    av1ts_queue_send as send(
        queue: Queue, in store: u8, channel: Channel, in descriptor: u8, out out: u8
    ) -> Sent;
}
