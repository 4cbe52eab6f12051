//! Queues and what they send, compared with the reference, and units to queue.

pub use crate::helpers::descriptor::EXAMPLE as VIDEO;
use crate::helpers::segment;
use crate::helpers::under_test::library;
use crate::helpers::unit::{any_list, carry_closed};
use crate::kit::{Given, Lent, Pattern, Random, Suite, hex, right};
use av1ts::queue::{Channel, Queue, Queued, Sent};
use reference::queue::send::{self, PCR_END};
use reference::queue::{self as model, MOST_TIME, NOT_ACCEPTED};
use reference::refusal::Refusal;
use reference::segment::Unit;
use reference::unit;

/// A channel that is right.
pub const CHANNEL: Channel = Channel {
    program: 7,
    map_pid: 0x0456,
    av1_pid: 0x0101,
    pcr: 27_000_299,
    pat_counter: 3,
    map_counter: 15,
    av1_counter: 0,
};

/// A queue as the C interface has it, with zeros behind its last unit.
pub fn in_c(queue: &model::Queue) -> Queue {
    let mut answer = Queue {
        units: queue.units.len() as u64,
        total: queue.total(),
        ..Queue::default()
    };
    for (index, unit) in queue.units.iter().enumerate() {
        answer.length[index] = unit.bytes.len() as u64;
        answer.pts[index] = unit.pts;
        answer.dts[index] = unit.dts;
        answer.marked[index] = u64::from(unit.marked);
    }
    answer
}

/// The units of a queue and its store.
fn from_c(queue: &Queue, store: &[u8]) -> model::Queue {
    let mut units = Vec::new();
    let mut rest = store;
    for index in 0..queue.units as usize {
        let (bytes, after) = rest.split_at(queue.length[index] as usize);
        rest = after;
        units.push(model::Queued {
            bytes: bytes.to_vec(),
            pts: queue.pts[index],
            dts: queue.dts[index],
            marked: queue.marked[index] == 1,
        });
    }
    model::Queue { units }
}

/// The queue without what stands behind its last unit, of which nothing is said.
fn used(queue: &Queue) -> Queue {
    let mut used = *queue;
    for index in 0..8 {
        if index as u64 >= queue.units {
            used.length[index] = 0;
            used.pts[index] = 0;
            used.dts[index] = 0;
            used.marked[index] = 0;
        }
    }
    used
}

/// The reference's channel as the C interface has it, or the other way: their fields are the same.
macro_rules! channel_as {
    ($($kind:ident)::+, $channel:expr) => {
        $($kind)::+ {
            program: $channel.program,
            map_pid: $channel.map_pid,
            av1_pid: $channel.av1_pid,
            pcr: $channel.pcr,
            pat_counter: $channel.pat_counter,
            map_counter: $channel.map_counter,
            av1_counter: $channel.av1_counter,
        }
    };
}

fn add(queue: Queue, store: &mut [u8], unit: &model::Queued, bytes: &[u8]) -> Queued {
    if library() {
        return av1ts::queue::add(queue, store, bytes, unit.pts, unit.dts, unit.marked);
    }
    let mut model = from_c(&queue, store);
    match model.add(unit.clone(), store.len()) {
        Err(refusal) => refused(queue, &refusal),
        Ok(()) => {
            let stored = model.stored();
            store[..stored.len()].copy_from_slice(&stored);
            done(in_c(&model))
        }
    }
}

fn drop_oldest(queue: Queue, store: &mut [u8]) -> Queued {
    if library() {
        return av1ts::queue::drop_oldest(queue, store);
    }
    let mut model = from_c(&queue, store);
    if !model.drop_oldest() {
        return nothing_to_drop(queue);
    }
    let stored = model.stored();
    store[..stored.len()].copy_from_slice(&stored);
    done(in_c(&model))
}

fn clear(queue: Queue) -> Queued {
    if library() {
        return av1ts::queue::clear(queue);
    }
    done(Queue::default())
}

pub fn total(queue: Queue) -> u64 {
    if library() {
        return av1ts::queue::total(queue);
    }
    queue.total
}

fn send(queue: Queue, store: &[u8], channel: Channel, descriptor: &[u8], out: &mut [u8]) -> Sent {
    if library() {
        return av1ts::queue::send(queue, store, channel, descriptor, out);
    }
    let model = from_c(&queue, store);
    let given = channel_as!(send::Channel, channel);
    let sent = send::send(&model, &given, descriptor, out.len());
    if let Ok(sent) = &sent {
        out[..sent.bytes.len()].copy_from_slice(&sent.bytes);
    }
    sent_answer(queue, channel, &sent)
}

fn refused(queue: Queue, refusal: &Refusal) -> Queued {
    Queued {
        number: refusal.number,
        place: refusal.place,
        empty: 0,
        queue,
    }
}

fn done(queue: Queue) -> Queued {
    Queued {
        queue,
        ..Queued::default()
    }
}

fn nothing_to_drop(queue: Queue) -> Queued {
    Queued {
        empty: 1,
        queue,
        ..Queued::default()
    }
}

fn sent_answer(queue: Queue, channel: Channel, sent: &Result<send::Sent, Refusal>) -> Sent {
    match sent {
        Err(refusal) => Sent {
            number: refusal.number,
            place: refusal.place,
            next: channel,
            queue,
            ..Sent::default()
        },
        Ok(sent) => Sent {
            bytes: sent.bytes.len() as u64,
            packets: sent.packets as u64,
            next: channel_as!(Channel, sent.next),
            ..Sent::default()
        },
    }
}

/// Elements in front of a store and behind it.
const GUARD: usize = 64;

/// A store that is lent from operation to operation, and what it must hold.
pub struct Store {
    whole: Vec<u8>,
    expected: Vec<u8>,
}

impl Store {
    pub fn new(room: usize) -> Store {
        let whole = u8::pattern(0)[..room + 2 * GUARD].to_vec();
        Store {
            expected: whole.clone(),
            whole,
        }
    }

    fn room(&self) -> usize {
        self.whole.len() - 2 * GUARD
    }

    pub fn lend(&mut self) -> &mut [u8] {
        let end = self.whole.len() - GUARD;
        &mut self.whole[GUARD..end]
    }

    pub fn part(&self) -> &[u8] {
        &self.whole[GUARD..self.whole.len() - GUARD]
    }

    /// From here on these bytes must stand at a place.
    fn expect(&mut self, at: usize, bytes: &[u8]) {
        self.expected[GUARD + at..GUARD + at + bytes.len()].copy_from_slice(bytes);
    }

    fn is_expected(&self) -> bool {
        self.whole == self.expected
    }

    /// Whether what stands in front of the store and behind it is as it was.
    pub fn guards_kept(&self) -> bool {
        let end = self.whole.len() - GUARD;
        self.whole[..GUARD] == self.expected[..GUARD] && self.whole[end..] == self.expected[end..]
    }
}

/// A queue with its store, and the buffers of its caller.
pub struct Session {
    pub queue: Queue,
    pub model: model::Queue,
    store: Store,
    unit: Given<u8>,
    descriptor: Given<u8>,
    out: Lent<u8>,
    pub check: segment::Caller,
}

impl Session {
    /// An empty queue with a store.
    pub fn new(room: usize) -> Session {
        Session {
            queue: Queue::default(),
            model: model::Queue::default(),
            store: Store::new(room),
            unit: Given::default(),
            descriptor: Given::default(),
            out: Lent::default(),
            check: segment::Caller::default(),
        }
    }

    /// The bytes that are queued.
    pub fn total(&self) -> usize {
        self.model.stored().len()
    }

    /// Compares an operation's answer with the one expected: where the queue is handed back as it
    /// was, all of it, else what its units say.
    fn compare(
        &mut self,
        suite: &mut Suite,
        (got, expected): (Queued, Queued),
        inputs: bool,
        labels: &[&str],
    ) {
        let same_queue = if expected.queue == self.queue {
            got.queue == expected.queue
        } else {
            used(&got.queue) == expected.queue
        };
        let answer =
            (got.number, got.place, got.empty) == (expected.number, expected.place, expected.empty);
        let store = self.store.is_expected() && total(got.queue) == self.model.total();
        suite.case(labels, answer && same_queue && store && inputs, || {
            format!(
                "queue {:?}: expected {expected:?}, got {got:?}, store {}",
                self.queue,
                if store {
                    "and total right"
                } else {
                    "or guards or total wrong"
                }
            )
        });
        self.queue = got.queue;
    }

    /// Adds a unit; answers whether it is queued.
    pub fn add(&mut self, suite: &mut Suite, unit: &model::Queued, more: &[&str]) -> bool {
        self.unit.give(&unit.bytes);
        let got = add(self.queue, self.store.lend(), unit, self.unit.part());
        let before = self.total();
        let outcome = self.model.add(unit.clone(), self.store.room());
        let reading;
        let mut labels = more.to_vec();
        let expected = match &outcome {
            Ok(()) => {
                self.store.expect(before, &unit.bytes);
                labels.push("added");
                done(in_c(&self.model))
            }
            Err(refusal) => {
                labels.push(refusal.condition);
                if refusal.condition == NOT_ACCEPTED {
                    let why = unit::accept(&unit.bytes).expect_err("it is not accepted");
                    reading = format!("51: {}", why.condition);
                    labels.push(&reading);
                }
                refused(self.queue, refusal)
            }
        };
        let inputs = self.unit.unchanged(&unit.bytes);
        self.compare(suite, (got, expected), inputs, &labels);
        outcome.is_ok()
    }

    /// Drops the oldest unit.
    pub fn drop_oldest(&mut self, suite: &mut Suite, more: &[&str]) {
        let got = drop_oldest(self.queue, self.store.lend());
        let (expected, label) = if self.model.drop_oldest() {
            // "Unit bytes stand back to back from the front"; the rest keeps its bytes.
            self.store.expect(0, &self.model.stored());
            (done(in_c(&self.model)), "dropped")
        } else {
            (nothing_to_drop(self.queue), "nothing to drop")
        };
        self.compare(suite, (got, expected), true, &[more, &[label]].concat());
    }

    /// Clears the queue.
    pub fn clear(&mut self, suite: &mut Suite, more: &[&str]) {
        let got = clear(self.queue);
        self.model.clear();
        let empty = got.queue == Queue::default();
        let expected = done(Queue::default());
        self.compare(
            suite,
            (got, expected),
            empty,
            &[more, &["cleared"]].concat(),
        );
    }

    /// Sends into a room. What is sent goes through both checks, which must give back the units.
    pub fn send(
        &mut self,
        suite: &mut Suite,
        channel: &Channel,
        descriptor: &[u8],
        room: usize,
        more: &[&str],
    ) -> Option<send::Sent> {
        self.descriptor.give(descriptor);
        let got = send(
            self.queue,
            self.store.part(),
            *channel,
            self.descriptor.part(),
            self.out.lend(room),
        );
        let given = channel_as!(send::Channel, channel);
        let sent = send::send(&self.model, &given, descriptor, room);
        let expected = sent_answer(self.queue, *channel, &sent);
        let bytes: &[u8] = sent.as_ref().map_or(&[], |sent| &sent.bytes);
        let output = self.out.holds(bytes);
        let inputs = self.store.is_expected() && self.descriptor.unchanged(descriptor);
        let label = match &sent {
            Ok(_) => "sent",
            Err(refusal) => refusal.condition,
        };
        let labels = [more, &[label]].concat();
        suite.case(&labels, got == expected && output && inputs, || {
            format!(
                "queue {:?}, {channel:?}, descriptor {}, room {room}: expected {expected:?}, \
                 got {got:?}, output {}",
                self.queue,
                hex(descriptor),
                right(output)
            )
        });
        self.queue = got.queue;
        let sent = sent.ok()?;
        let units = carried(&self.model);
        self.model.clear();
        self.accepted(suite, channel, &sent.bytes, &units, more);
        Some(sent)
    }

    /// Sends into a room that is large enough.
    pub fn send_wide(
        &mut self,
        suite: &mut Suite,
        channel: &Channel,
        more: &[&str],
    ) -> Option<send::Sent> {
        let room = 188 * (self.total() / 184 + 3 + 8 * 3);
        self.send(suite, channel, &VIDEO, room, more)
    }

    /// "01's check accepts what send writes and, given long enough buffers, returns the same units
    /// and times": the reference's check and the library's.
    pub fn accepted(
        &mut self,
        suite: &mut Suite,
        channel: &Channel,
        bytes: &[u8],
        units: &[Unit],
        more: &[&str],
    ) {
        let rooms = segment::exact(units);
        self.check
            .check_as(suite, bytes, rooms, more, |verdict| match verdict {
                Err(_) => false,
                Ok(accepted) => {
                    u64::from(accepted.program) == channel.program
                        && u64::from(accepted.pid) == channel.av1_pid
                        && accepted.units == units
                        && accepted.totals.null == 0
                        && accepted.totals.other_listed == 0
                        && accepted.totals.unlisted == 0
                }
            });
    }
}

/// The queued units as a check gives them.
pub fn carried(queue: &model::Queue) -> Vec<Unit> {
    let mut units = Vec::new();
    for unit in &queue.units {
        units.push(Unit {
            bytes: unit.bytes.clone(),
            pts: unit.pts,
            dts: unit.dts,
        });
    }
    units
}

/// A unit of so many carried bytes, at least four: one frame.
pub fn plain(length: usize) -> Vec<u8> {
    let mut unit = vec![0, 0, 1, 0x30];
    unit.resize(length, 0xAA);
    unit
}

/// A unit to queue, without mark and DTS.
pub fn queued(bytes: Vec<u8>) -> model::Queued {
    model::Queued {
        bytes,
        pts: 90_000,
        dts: 90_000,
        marked: false,
    }
}

/// Times of every magnitude.
pub fn any_time(random: &mut Random) -> u64 {
    match random.below(4) {
        0 => random.pick(&[0, 1, 0x7FFF, 0x8000, 1 << 30, (1 << 30) - 1, MOST_TIME]),
        _ => random.next() & MOST_TIME,
    }
}

/// A unit to queue that is right, of about so many bytes at most.
pub fn any_unit(random: &mut Random, longest: usize) -> model::Queued {
    let most = 2 + random.below(4);
    let list = any_list(random, most, longest);
    let bytes = carry_closed(random, &list);
    let pts = any_time(random);
    let dts = if random.one_in(2) {
        pts
    } else {
        any_time(random)
    };
    model::Queued {
        bytes,
        pts,
        dts,
        marked: random.one_in(2),
    }
}

/// A channel that is right.
pub fn any_channel(random: &mut Random) -> Channel {
    let map_pid = match random.below(4) {
        0 => 0x0010,
        1 => 0x1FFE,
        _ => 0x0010 + random.below(0x1FEF) as u64,
    };
    let mut av1_pid = map_pid;
    while av1_pid == map_pid {
        av1_pid = match random.below(4) {
            0 => random.pick(&[1, 15, 16, 0x1FFE]),
            _ => 1 + random.below(0x1FFE) as u64,
        };
    }
    Channel {
        program: match random.below(4) {
            0 => random.pick(&[1, 0xFFFF]),
            _ => 1 + random.below(0xFFFF) as u64,
        },
        map_pid,
        av1_pid,
        pcr: match random.below(4) {
            0 => random.pick(&[0, 299, 300, PCR_END - 1]),
            _ => random.next() % PCR_END,
        },
        pat_counter: random.below(16) as u64,
        map_counter: random.below(16) as u64,
        av1_counter: random.below(16) as u64,
    }
}
