//! Timing: the library and its peers take turns on the same buffers, and the best turn of each counts.

use crate::input::{COUNTED_SIZES, SIZES, Size};
use crate::peers::plain::cpu_nanoseconds;
use av1ts::Answer;
use std::arch::asm;
use std::fmt::Debug;

/// What is measured, and how often.
pub struct Plan {
    /// Passes over the whole table, so that a row's turns are spread over the run.
    pub passes: usize,
    /// Turns in a pass, for segments.
    pub segment: usize,
    /// Turns in a pass, for all else.
    pub rest: usize,
    /// The lengths of OBUs, payloads and units.
    pub sizes: &'static [Size],
    /// The inputs of one row have so many bytes together, or one of them has more.
    pub all_bytes: usize,
    /// Of a segment of 12 MB there is one of so many parts, and how long that is.
    pub part: usize,
    pub segment_size: &'static str,
    /// Instructions are counted, by who runs this program, and no time is taken.
    pub counted: bool,
}

impl Plan {
    /// 1 MiB of different inputs is too much for a processor to learn their branches by heart.
    pub const FULL: Plan = Plan {
        passes: 4,
        segment: 2,
        rest: 4,
        sizes: &SIZES,
        all_bytes: 1_048_576,
        part: 1,
        segment_size: "12 MB",
        counted: false,
    };
    pub const QUICK: Plan = Plan {
        passes: 1,
        ..Plan::FULL
    };
    pub const COUNTED: Plan = Plan {
        passes: 1,
        sizes: &COUNTED_SIZES,
        all_bytes: 65_536,
        part: 12,
        segment_size: "1 MB",
        counted: true,
        ..Plan::FULL
    };

    /// How many inputs of a length there are.
    pub fn inputs(&self, len: usize) -> usize {
        (self.all_bytes / len).max(1)
    }
}

/// Turns that are taken first in a pass and not counted.
const WARM_UP: usize = 1;

/// A turn goes over the inputs again and again until it has lasted 2 ms.
const TURN_NANOSECONDS: u64 = 2_000_000;

/// What the library is measured beside, in the order of the table's columns.
#[derive(Clone, Copy)]
pub enum Peer {
    PlainC,
    Lavc,
    PacketLoop,
    Sse2,
    Memcpy,
    /// The library's own check of a segment, which the writing of a sheet does too.
    Check,
}

/// How many peers have a column in the first table.
pub const COLUMNS: usize = Peer::Check as usize;

pub const PEERS: usize = COLUMNS + 1;

/// What a row is called: the function, the kind of its input, the size.
pub type Names = [&'static str; 3];

/// A line of the table: nanoseconds of CPU time per byte of the input, or per packet header.
pub struct Row {
    pub names: Names,
    pub library: f64,
    pub peers: [Option<f64>; PEERS],
}

impl Row {
    /// Keeps the better of each time.
    pub fn keep_best(&mut self, other: &Row) {
        self.library = self.library.min(other.library);
        for (best, time) in self.peers.iter_mut().zip(other.peers) {
            *best = best.zip(time).map(|(a, b)| a.min(b));
        }
    }
}

/// Hands a value on without the compiler knowing it (`std::hint::black_box` came with Rust 1.66).
fn opaque<T>(value: T) -> T {
    // SAFETY: there is no instruction; the compiler takes the value's memory as read and written.
    unsafe { asm!("/* {0} */", in(reg) &value, options(nostack, preserves_flags)) };
    value
}

/// A way to do a function's job.
pub trait Way<I, O, A> {
    fn once(&self, input: &I, outputs: &mut O) -> A;
    fn over(&self, inputs: &[I], outputs: &mut O);
}

impl<I, O, A, F: Fn(&I, &mut O) -> A> Way<I, O, A> for F {
    fn once(&self, input: &I, outputs: &mut O) -> A {
        self(input, outputs)
    }

    fn over(&self, inputs: &[I], outputs: &mut O) {
        for input in inputs {
            opaque(self(opaque(input), opaque(&mut *outputs)));
        }
    }
}

/// A way over all the inputs of a case.
pub type Run<'a, O> = Box<dyn Fn(&mut O) + 'a>;

/// What a function gives.
pub trait Outcome: Debug + PartialEq {
    fn is_refusal(&self) -> bool;
}

impl Outcome for Answer {
    fn is_refusal(&self) -> bool {
        self.number != 0
    }
}

/// A number, which no function refuses to give.
impl Outcome for u64 {
    fn is_refusal(&self) -> bool {
        false
    }
}

/// What is measured: a function on some inputs, which are handled one after the other.
pub struct Case<'a, I> {
    pub plan: &'a Plan,
    pub names: Names,
    pub inputs: &'a [I],
    /// Bytes of the inputs together, or packet headers.
    pub amount: usize,
    pub repeats: usize,
}

impl<'a, I: AsRef<[u8]>> Case<'a, I> {
    /// Each byte of the inputs counts, and there are as many turns as for all but segments.
    pub fn new(plan: &'a Plan, names: Names, inputs: &'a [I]) -> Case<'a, I> {
        Case {
            plan,
            names,
            inputs,
            amount: inputs.iter().map(|input| input.as_ref().len()).sum(),
            repeats: plan.rest,
        }
    }

    /// One input, and as many turns as for segments.
    pub fn of_segment(plan: &'a Plan, names: Names, input: &'a I) -> Case<'a, I> {
        Case {
            repeats: plan.segment,
            ..Case::new(plan, names, std::slice::from_ref(input))
        }
    }

    /// The row of a function whose peers give the same answers and leave the same outputs, which is
    /// found first.
    pub fn compare<O: AsMut<[u8]> + Clone + PartialEq, A: Outcome>(
        &self,
        outputs: &mut O,
        library: &dyn Way<I, O, A>,
        peers: &[(Peer, &dyn Way<I, O, A>)],
    ) -> Result<Row, String> {
        let mut runs = Vec::new();
        for &(peer, way) in peers {
            self.same(outputs, library, way)?;
            runs.push((peer, self.run(way)));
        }
        runs.push((Peer::Memcpy, self.run(&copy)));
        Ok(self.row(outputs, self.run(library), runs))
    }

    fn same<O: Clone + PartialEq, A: Outcome>(
        &self,
        outputs: &O,
        library: &dyn Way<I, O, A>,
        peer: &dyn Way<I, O, A>,
    ) -> Result<(), String> {
        let (mut by_library, mut by_peer) = (outputs.clone(), outputs.clone());
        for input in self.inputs {
            let answer = library.once(input, &mut by_library);
            let expected = peer.once(input, &mut by_peer);
            if answer.is_refusal() || answer != expected || by_library != by_peer {
                return Err(self.difference(&answer, &expected));
            }
        }
        Ok(())
    }

    pub fn run<'b, O, A>(&'b self, way: &'b dyn Way<I, O, A>) -> Run<'b, O> {
        Box::new(move |outputs| way.over(self.inputs, outputs))
    }

    pub fn row<O>(&self, outputs: &mut O, library: Run<O>, peers: Vec<(Peer, Run<O>)>) -> Row {
        let (names, mut runs): (Vec<Peer>, Vec<Run<O>>) = peers.into_iter().unzip();
        runs.insert(0, library);
        let times = if self.plan.counted {
            self.count(outputs, &names, &runs)
        } else {
            self.best_turns(outputs, &runs)
        };
        let mut row = Row {
            names: self.names,
            library: times[0],
            peers: [None; PEERS],
        };
        for (&peer, &time) in names.iter().zip(&times[1..]) {
            row.peers[peer as usize] = Some(time);
        }
        row
    }

    /// Each run once, counted, after one that is not; says what was run. There are no times.
    fn count<O>(&self, outputs: &mut O, names: &[Peer], runs: &[Run<O>]) -> Vec<f64> {
        let columns = [0]
            .into_iter()
            .chain(names.iter().map(|&name| 1 + name as usize));
        for (column, run) in columns.zip(runs) {
            run(outputs);
            bench_counted(&mut || run(outputs));
            println!("{}|{column}|{}", self.names.join("|"), self.amount);
        }
        vec![0.0; runs.len()]
    }

    /// The best turn of the library and of each peer; which one goes first changes from round to
    /// round.
    fn best_turns<O>(&self, outputs: &mut O, runs: &[Run<O>]) -> Vec<f64> {
        let mut best = vec![f64::INFINITY; runs.len()];
        for round in 0..WARM_UP + self.repeats {
            for turn in 0..runs.len() {
                let k = (round + turn) % runs.len();
                let time = self.turn(outputs, &runs[k]);
                if round >= WARM_UP {
                    best[k] = best[k].min(time);
                }
            }
        }
        best
    }

    /// One turn: nanoseconds per byte or header, over all its calls.
    fn turn<O>(&self, outputs: &mut O, run: &Run<O>) -> f64 {
        let mut amount = 0;
        let mut elapsed = 0;
        let start = cpu_nanoseconds();
        while elapsed < TURN_NANOSECONDS {
            run(outputs);
            amount += self.amount;
            elapsed = cpu_nanoseconds() - start;
        }
        elapsed as f64 / amount as f64
    }

    /// The message where the library and a peer differ.
    pub fn difference<A: Debug + PartialEq>(&self, answer: &A, expected: &A) -> String {
        let what = if answer == expected {
            "the outputs differ, or it is refused"
        } else {
            "the answer differs"
        };
        let [function, kind, size] = self.names;
        format!("{function} of {kind}, {size}: {what}; answer {answer:?}, expected {expected:?}")
    }
}

/// What is counted where instructions are: `bench/instructions` knows it by its name.
#[no_mangle]
#[inline(never)]
pub fn bench_counted(work: &mut dyn FnMut()) {
    work();
}

/// memcpy of the input to the front of the output.
pub fn copy<I: AsRef<[u8]>, O: AsMut<[u8]>>(input: &I, outputs: &mut O) {
    let input = input.as_ref();
    outputs.as_mut()[..input.len()].copy_from_slice(input);
}

/// A function of the input's bytes that writes nothing.
pub fn asking<I: AsRef<[u8]>, O, A>(f: impl Fn(&[u8]) -> A) -> impl Fn(&I, &mut O) -> A {
    move |input, _| f(input.as_ref())
}

/// An output buffer, every byte of it written once.
pub fn touched(len: usize) -> Vec<u8> {
    vec![0xA5; len]
}

/// What a function writes of units: bytes, and each one's length and two times; and a sheet.
#[derive(Clone, PartialEq)]
pub struct Outputs {
    pub bytes: Vec<u8>,
    pub lengths: Vec<usize>,
    pub times: Vec<u64>,
    pub sheet: Vec<u8>,
}

impl Outputs {
    /// So many bytes, so many lengths with their times, and no sheet.
    pub fn touched(bytes: usize, lengths: usize) -> Outputs {
        Outputs {
            bytes: touched(bytes),
            lengths: vec![usize::MAX; lengths],
            times: vec![u64::MAX; 2 * lengths],
            sheet: Vec::new(),
        }
    }
}

impl AsMut<[u8]> for Outputs {
    fn as_mut(&mut self) -> &mut [u8] {
        &mut self.bytes
    }
}
