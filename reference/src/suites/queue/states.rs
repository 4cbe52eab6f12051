//! Queues that no operation hands back, and stores that were changed: every operation answers by one
//! of its numbers, and nothing outside what it is lent is touched.

use crate::helpers::queue::{CHANNEL, Session, Store, VIDEO, any_channel, any_unit, plain};
use crate::kit::{Definition, Given, Lent, Random, Suite, labels};
use av1ts::queue::{self, Queue, Queued};

pub const SUITE: Definition = Definition {
    name: "queue-states",
    labels: || {
        labels(&[
            "more than 8 units",
            "a length past the store",
            "lengths whose sum would wrap",
            "a length of 0",
            "a time above 33 bits",
            "a mark above 1",
            "slots behind the last unit",
            "a total that is not the sum",
            "any numbers",
            "the store was changed",
            "another store, shorter",
        ])
    },
    run,
};

/// All operations on a queue and a store: each answers by one of its numbers at place 0, only what is
/// lent changes, and nothing does where it refuses.
fn all(suite: &mut Suite, random: &mut Random, queue: Queue, room: usize, label: &str) {
    let mut unit = Given::default();
    let mut store = Store::new(room);
    let mut out = Lent::default();
    let bytes = plain(4 + random.below(60));
    unit.give(&bytes);
    let before = store.part().to_vec();
    let added = queue::add(queue, store.lend(), unit.part(), 5, 4, true);
    let answered = [0, 8, 50, 51].contains(&added.number) && (added.place, added.empty) == (0, 0);
    let kept = added.number == 0 || store.part() == before;
    let passed = answered && kept && store.guards_kept() && unit.unchanged(&bytes);
    suite.case(&[label], passed, || {
        format!("add to {queue:?}: {added:?}, or guards wrong")
    });

    let dropped = queue::drop_oldest(queue, store.lend());
    let passed = (dropped.number, dropped.place) == (0, 0) && store.guards_kept();
    suite.case(&[label], passed, || {
        format!("drop of {queue:?}: {dropped:?}, or guards wrong")
    });

    let (cleared, total) = (queue::clear(queue), queue::total(queue));
    let passed = cleared == Queued::default() && total == queue.total;
    suite.case(&[label], passed, || {
        format!("clear of {queue:?}: {cleared:?}, its total {total}")
    });

    let before = store.part().to_vec();
    let channel = any_channel(random);
    let out_room = random.pick(&[0, 187, 1000, 20_000]);
    let sent = queue::send(queue, store.part(), channel, &VIDEO, out.lend(out_room));
    let answered = [0, 8, 52, 53].contains(&sent.number) && sent.place == 0;
    // What was written stands inside the output, as long as the answer says.
    let length = sent.bytes as usize;
    let inside = length <= out_room && out.holds(&out.part()[..length]);
    let passed = answered && inside && store.part() == before && store.guards_kept();
    suite.case(&[label], passed, || {
        format!("send of {queue:?}: {sent:?}, or guards wrong")
    });
}

/// A queue that operations led to, with one thing changed.
fn changed(right: &Queue, change: impl FnOnce(&mut Queue)) -> Queue {
    let mut queue = *right;
    change(&mut queue);
    queue
}

/// A queue of any numbers, most of them small.
fn any_queue(random: &mut Random) -> Queue {
    let mut number = || match random.below(4) {
        0 => 0,
        1 => random.next() % 9,
        2 => random.next() % 700,
        _ => random.next(),
    };
    let mut queue = Queue {
        units: number(),
        total: number(),
        ..Queue::default()
    };
    for slot in 0..8 {
        queue.length[slot] = number();
        queue.pts[slot] = number();
        queue.dts[slot] = number();
        queue.marked[slot] = number();
    }
    queue
}

/// A queue that operations led to, changed in each way in turn, with a store of some room.
fn one(suite: &mut Suite, random: &mut Random) {
    let mut session = Session::new(600);
    for _ in 0..1 + random.below(6) {
        session.add(suite, &any_unit(random, 20), &[]);
    }
    let right = session.queue;
    let slot = random.below(8);
    let at = random.below(right.units as usize);
    let wild = random.pick(&[9, 16, 255, 1 << 32, u64::MAX]);
    let room = random.below(700);
    let mut try_one = |random: &mut Random, queue: Queue, label: &str| {
        all(suite, random, queue, room, label);
    };

    let queue = changed(&right, |queue| queue.units = wild);
    try_one(random, queue, "more than 8 units");
    let length = random.pick(&[room as u64 + 1, 1_573_057, 1 << 32, u64::MAX]);
    let queue = changed(&right, |queue| queue.length[at] = length);
    try_one(random, queue, "a length past the store");
    let queue = changed(&right, |queue| {
        queue.units = 8;
        queue.length = [1 << 61; 8];
    });
    try_one(random, queue, "lengths whose sum would wrap");
    let queue = changed(&right, |queue| queue.length[at] = 0);
    try_one(random, queue, "a length of 0");
    let queue = changed(&right, |queue| {
        queue.pts[at] = 1 << 33 | random.next();
        queue.dts[at] = random.next();
    });
    try_one(random, queue, "a time above 33 bits");
    let queue = changed(&right, |queue| queue.marked[at] = wild);
    try_one(random, queue, "a mark above 1");
    let queue = changed(&right, |queue| {
        queue.length[slot] = random.next();
        queue.pts[slot] = random.next();
    });
    try_one(random, queue, "slots behind the last unit");
    let total = random.pick(&[0, right.total - 1, right.total + 1, 1 << 33, u64::MAX]);
    let queue = changed(&right, |queue| queue.total = total);
    try_one(random, queue, "a total that is not the sum");
    let queue = any_queue(random);
    try_one(random, queue, "any numbers");
    try_one(random, right, "the store was changed");
    let shorter = session.total() - 1;
    all(suite, random, right, shorter, "another store, shorter");
    session.send_wide(suite, &CHANNEL, &[]);
}

fn run(suite: &mut Suite) {
    let mut random = Random::new(506);
    for _ in 0..2000 {
        one(suite, &mut random);
    }
}
