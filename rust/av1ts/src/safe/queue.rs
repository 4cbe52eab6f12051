//! The units to send.

use super::{MOST_CARRIED_BYTES, MOST_SEGMENT_BYTES, Refused};
use crate::queue;

/// The most units of a queue.
const MOST_QUEUED: u64 = 8;

/// A queued access unit as carried, its times in ticks of 90 kHz, and its random-access mark.
#[derive(Clone, Copy, Debug, PartialEq, Eq)]
pub struct QueuedUnit<'a> {
    pub carried: &'a [u8],
    pub pts: u64,
    pub dts: u64,
    pub marked: bool,
}

/// What a send goes by. Each counter is that of its PID's next packet with payload; a send leaves
/// those that follow.
#[derive(Clone, Copy, Debug, Default, PartialEq, Eq)]
pub struct Channel {
    pub program: u16,
    pub map_pid: u16,
    /// The PID of the AV1 stream, which is the PCR PID too.
    pub av1_pid: u16,
    /// The PCR of the next send, in ticks of 27 MHz.
    pub pcr: u64,
    pub pat_counter: u8,
    pub map_counter: u8,
    pub av1_counter: u8,
}

/// A queue of up to eight access units, with their bytes.
///
/// ```
/// use av1ts::{Channel, Queue};
/// let mut queue = Queue::new();
/// queue.add(&[0, 0, 1, 0x12, 0, 0, 0, 1, 0x30, 0xAA], 9000, 8000, true)?;
/// queue.add(&[0, 0, 1, 0x30, 0xBB], 12_600, 12_600, false)?;
/// assert_eq!((queue.len(), queue.total()), (2, 15));
///
/// let mut channel = Channel { program: 1, map_pid: 0x20, av1_pid: 0x30, ..Default::default() };
/// let packets = queue.send(&mut channel, &[0x80, 4, 0x81, 8, 0x0C, 0xC0])?;
/// assert_eq!(packets.len(), 5 * 188);
/// assert_eq!((channel.pat_counter, channel.av1_counter), (1, 2));
/// assert!(queue.is_empty());
///
/// let segment = av1ts::check_segment(&packets)?;
/// let times: Vec<_> = segment.units().map(|unit| (unit.pts, unit.dts)).collect();
/// assert_eq!(times, [(9000, 8000), (12_600, 12_600)]);
/// # Ok::<(), av1ts::Refused>(())
/// ```
#[derive(Clone, Debug, Default)]
pub struct Queue {
    state: queue::Queue,
    store: Vec<u8>,
}

impl Queue {
    /// The empty queue.
    pub fn new() -> Queue {
        Queue::default()
    }

    /// Puts a unit behind the others, with its times in ticks of 90 kHz and whether it is to be
    /// marked as a random access point. A refusal changes nothing.
    ///
    /// ```
    /// let mut queue = av1ts::Queue::new();
    /// for _ in 0..8 {
    ///     queue.add(&[0, 0, 1, 0x30, 0xAA], 0, 0, false)?;
    /// }
    /// let full = queue.add(&[0, 0, 1, 0x30, 0xAA], 0, 0, false).unwrap_err();
    /// assert_eq!(full.to_string(), "refused 50 at 0: eight units are queued");
    /// # Ok::<(), av1ts::Refused>(())
    /// ```
    pub fn add(&mut self, unit: &[u8], pts: u64, dts: u64, marked: bool) -> Result<(), Refused> {
        if self.state.units < MOST_QUEUED {
            // a longer unit is refused before the room is looked at
            let room = self.total() + unit.len().min(MOST_CARRIED_BYTES);
            self.store.resize(room.max(self.store.len()), 0);
        }
        let answer = queue::add(self.state, &mut self.store, unit, pts, dts, marked);
        Refused::check(answer.number, answer.place)?;
        self.state = answer.queue;
        Ok(())
    }

    /// Takes out the oldest unit; false where there was none.
    ///
    /// ```
    /// let mut queue = av1ts::Queue::new();
    /// queue.add(&[0, 0, 1, 0x30, 0xAA], 0, 0, true)?;
    /// queue.add(&[0, 0, 1, 0x30, 0xBB], 3600, 3600, false)?;
    /// assert!(queue.drop_oldest());
    /// assert_eq!(queue.units().next().unwrap().carried, [0, 0, 1, 0x30, 0xBB]);
    /// assert!(queue.drop_oldest());
    /// assert!(!queue.drop_oldest());
    /// # Ok::<(), av1ts::Refused>(())
    /// ```
    pub fn drop_oldest(&mut self) -> bool {
        let answer = queue::drop_oldest(self.state, &mut self.store);
        self.state = answer.queue;
        answer.empty == 0
    }

    /// Takes out all units.
    ///
    /// ```
    /// let mut queue = av1ts::Queue::new();
    /// queue.add(&[0, 0, 1, 0x30, 0xAA], 0, 0, true)?;
    /// queue.clear();
    /// assert_eq!(queue.total(), 0);
    /// # Ok::<(), av1ts::Refused>(())
    /// ```
    pub fn clear(&mut self) {
        self.state = queue::clear(self.state).queue;
    }

    /// How many units are queued.
    pub fn len(&self) -> usize {
        self.state.units as usize
    }

    pub fn is_empty(&self) -> bool {
        self.len() == 0
    }

    /// How many bytes the queued units have together.
    pub fn total(&self) -> usize {
        queue::total(self.state) as usize
    }

    /// The queued units, oldest first.
    pub fn units(&self) -> impl Iterator<Item = QueuedUnit<'_>> + '_ {
        let mut rest = &self.store[..];
        (0..self.len()).map(move |index| {
            let (carried, others) = rest.split_at(self.state.length[index] as usize);
            rest = others;
            QueuedUnit {
                carried,
                pts: self.state.pts[index],
                dts: self.state.dts[index],
                marked: self.state.marked[index] != 0,
            }
        })
    }

    /// The packets of all queued units behind a PAT, a PMT with this video descriptor and a PCR;
    /// the queue is then empty, and the channel has the counters that follow. A refusal changes
    /// nothing.
    ///
    /// ```
    /// use av1ts::{Channel, Queue, Refusal};
    /// let mut channel = Channel { program: 0, map_pid: 0x20, av1_pid: 0x30, ..Default::default() };
    /// let refused = Queue::new().send(&mut channel, &[0x80, 4, 0x81, 8, 0x0C, 0xC0]).unwrap_err();
    /// assert_eq!(refused.why, Refusal::Channel); // a program number of 0
    /// ```
    pub fn send(&mut self, channel: &mut Channel, descriptor: &[u8]) -> Result<Vec<u8>, Refused> {
        let mut packets = vec![0; self.room_to_send()];
        let given = channel.state();
        let answer = queue::send(self.state, &self.store, given, descriptor, &mut packets);
        Refused::check(answer.number, answer.place)?;
        packets.truncate(answer.bytes as usize);
        channel.pat_counter = answer.next.pat_counter as u8;
        channel.map_counter = answer.next.map_counter as u8;
        channel.av1_counter = answer.next.av1_counter as u8;
        self.state = answer.queue;
        Ok(packets)
    }

    /// Room enough for a send: three packets, and of each unit its bytes, a PES header of at most
    /// 19 and an adaptation field of at most two, in packets that carry 184.
    fn room_to_send(&self) -> usize {
        let packets = self.units().map(|unit| (unit.carried.len() + 21) / 184 + 1);
        (188 * (3 + packets.sum::<usize>())).min(MOST_SEGMENT_BYTES)
    }
}

impl Channel {
    fn state(&self) -> queue::Channel {
        queue::Channel {
            program: self.program.into(),
            map_pid: self.map_pid.into(),
            av1_pid: self.av1_pid.into(),
            pcr: self.pcr,
            pat_counter: self.pat_counter.into(),
            map_counter: self.map_counter.into(),
            av1_counter: self.av1_counter.into(),
        }
    }
}
