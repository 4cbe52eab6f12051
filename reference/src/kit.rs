//! The test kit: a random generator, guarded buffers, and a suite's cases, labels and counts.

use std::collections::HashMap;

/// A deterministic random generator (splitmix64).
pub struct Random {
    state: u64,
}

impl Random {
    pub fn new(seed: u64) -> Random {
        Random { state: seed }
    }

    pub fn next(&mut self) -> u64 {
        self.state = self.state.wrapping_add(0x9E37_79B9_7F4A_7C15);
        let mut z = self.state;
        z = (z ^ (z >> 30)).wrapping_mul(0xBF58_476D_1CE4_E5B9);
        z = (z ^ (z >> 27)).wrapping_mul(0x94D0_49BB_1331_11EB);
        z ^ (z >> 31)
    }

    /// A number below `limit`, which is not 0.
    pub fn below(&mut self, limit: usize) -> usize {
        (self.next() % limit as u64) as usize
    }

    /// True once in `n` times.
    pub fn one_in(&mut self, n: usize) -> bool {
        self.below(n) == 0
    }

    pub fn pick<T: Copy>(&mut self, choices: &[T]) -> T {
        choices[self.below(choices.len())]
    }

    /// A length from 0 to `limit`, short ones as likely as long ones.
    pub fn length(&mut self, limit: usize) -> usize {
        let bits = (usize::BITS - limit.leading_zeros()) as usize;
        let top = 1usize << self.below(bits + 1);
        self.below(top.min(limit + 1))
    }

    pub fn fill(&mut self, len: usize, mut byte: impl FnMut(&mut Random) -> u8) -> Vec<u8> {
        let mut bytes = Vec::with_capacity(len);
        for _ in 0..len {
            bytes.push(byte(self));
        }
        bytes
    }
}

/// Elements in front of a lent buffer and behind it.
const GUARD: usize = 64;

/// Elements with a fixed pattern, two kinds of it, for buffers that are lent.
pub trait Pattern: Copy + Default + PartialEq + 'static {
    fn pattern(kind: usize) -> &'static [Self];
}

fn make_pattern<T>(kind: usize, len: usize, from: fn(u64) -> T) -> &'static [T] {
    let mut random = Random::new(7);
    let mut pattern = Vec::with_capacity(len);
    for _ in 0..len {
        let word = random.next();
        pattern.push(from(if kind == 0 { word } else { !word }));
    }
    Box::leak(pattern.into_boxed_slice())
}

/// The pattern of an element, of a length that no buffer here passes.
macro_rules! pattern {
    ($element:ty, $len:expr) => {
        impl Pattern for $element {
            fn pattern(kind: usize) -> &'static [$element] {
                thread_local! {
                    static PATTERNS: [&'static [$element]; 2] =
                        [0, 1].map(|kind| make_pattern(kind, $len, |word| word as $element));
                }
                PATTERNS.with(|patterns| patterns[kind])
            }
        }
    };
}

pattern!(u8, 13 << 20);
pattern!(usize, 1 << 12);
pattern!(u64, 1 << 19);

/// A buffer to be lent as an output: it stands inside a larger one filled with a pattern.
pub struct Lent<T> {
    whole: Vec<T>,
    room: usize,
    kind: usize,
}

impl<T: Pattern> Default for Lent<T> {
    fn default() -> Lent<T> {
        Lent {
            whole: Vec::new(),
            room: 0,
            kind: 0,
        }
    }
}

impl<T: Pattern> Lent<T> {
    /// Fills the buffer anew, with the other kind of pattern, and lends `room` elements of it.
    pub fn lend(&mut self, room: usize) -> &mut [T] {
        self.kind = 1 - self.kind;
        self.room = room;
        self.whole.clear();
        self.whole
            .extend_from_slice(&T::pattern(self.kind)[..room + 2 * GUARD]);
        &mut self.whole[GUARD..GUARD + room]
    }

    /// `written` stands at the front of the part lent, and all else, the guards too, is as it was.
    pub fn holds(&self, written: &[T]) -> bool {
        let pattern = &T::pattern(self.kind)[..self.room + 2 * GUARD];
        let end = GUARD + written.len();
        written.len() <= self.room
            && self.whole.len() == pattern.len()
            && self.whole[..GUARD] == pattern[..GUARD]
            && self.whole[GUARD..end] == *written
            && self.whole[end..] == pattern[end..]
    }

    /// The part lent is zeros throughout, and the guards are as they were.
    pub fn cleared(&self) -> bool {
        let pattern = &T::pattern(self.kind)[..self.room + 2 * GUARD];
        let end = GUARD + self.room;
        self.whole.len() == pattern.len()
            && self.whole[..GUARD] == pattern[..GUARD]
            && self.part().iter().all(|&element| element == T::default())
            && self.whole[end..] == pattern[end..]
    }

    /// The part lent, as it is now.
    pub fn part(&self) -> &[T] {
        &self.whole[GUARD..GUARD + self.room]
    }
}

/// What stands in front of an input and behind it: what a read past its edges would find.
pub trait Around: Copy + PartialEq + 'static {
    const AROUND: [([Self; 4], [Self; 6]); 6];
}

impl Around for u8 {
    const AROUND: [([u8; 4], [u8; 6]); 6] = [
        ([0xFF; 4], [0xFF; 6]),
        ([0, 0, 0, 0], [0, 0, 1, 0x30, 0xAA, 0]),
        ([0, 0, 0, 1], [1, 1, 0, 0, 1, 0x30]),
        ([0, 0, 0, 3], [3, 3, 0, 0, 3, 4]),
        ([0x30, 0, 0, 0], [4, 0, 0, 0, 0, 0]),
        ([0x12, 0, 0, 1], [0, 1, 0, 0, 2, 0x40]),
    ];
}

impl Around for usize {
    const AROUND: [([usize; 4], [usize; 6]); 6] = [
        ([0; 4], [0; 6]),
        ([1; 4], [1; 6]),
        ([2; 4], [2; 6]),
        ([usize::MAX; 4], [usize::MAX; 6]),
        ([0; 4], [3, 1, 0, 0, 0, 0]),
        ([7; 4], [usize::MAX - 1, 0, 0, 0, 0, 0]),
    ];
}

impl Around for u64 {
    const AROUND: [([u64; 4], [u64; 6]); 6] = [
        ([0; 4], [0; 6]),
        ([1; 4], [1; 6]),
        ([188; 4], [188; 6]),
        ([u64::MAX; 4], [u64::MAX; 6]),
        ([27_000_000; 4], [27_000_001, 189, 0, 0, 0, 0]),
        ([7; 4], [u64::MAX - 1, 0, 0, 0, 0, 0]),
    ];
}

/// An input to be lent, inside a larger buffer; what stands around it changes from one to the next.
pub struct Given<T> {
    whole: Vec<T>,
    len: usize,
    kind: usize,
}

impl<T> Default for Given<T> {
    fn default() -> Given<T> {
        Given {
            whole: Vec::new(),
            len: 0,
            kind: 0,
        }
    }
}

impl<T: Around> Given<T> {
    pub fn give(&mut self, input: &[T]) {
        self.kind = (self.kind + 1) % T::AROUND.len();
        self.len = input.len();
        self.whole.clear();
        self.whole.extend_from_slice(&T::AROUND[self.kind].0);
        self.whole.extend_from_slice(input);
        self.whole.extend_from_slice(&T::AROUND[self.kind].1);
    }

    pub fn part(&self) -> &[T] {
        let (before, _) = T::AROUND[self.kind];
        &self.whole[before.len()..before.len() + self.len]
    }

    pub fn unchanged(&self, input: &[T]) -> bool {
        let (before, after) = T::AROUND[self.kind];
        self.whole.starts_with(&before) && self.part() == input && self.whole.ends_with(&after)
    }
}

/// What a suite is: its name, the labels that its cases must hit, and its cases.
pub struct Definition {
    pub name: &'static str,
    pub labels: fn() -> Vec<String>,
    pub run: fn(&mut Suite),
}

pub fn labels(list: &[&str]) -> Vec<String> {
    list.iter().map(|label| label.to_string()).collect()
}

/// The cases of a suite as they run.
pub struct Suite {
    cases: u64,
    wrong: u64,
    hits: HashMap<String, u64>,
}

/// Failures of one suite that are shown in detail.
const SHOWN: u64 = 10;

/// What came of a suite.
pub struct Outcome {
    pub passed: u64,
    pub failed: u64,
}

impl Suite {
    /// One case, with its labels. The detail is asked for only where the case is shown.
    pub fn case(&mut self, labels: &[&str], passed: bool, detail: impl FnOnce() -> String) {
        self.cases += 1;
        for label in labels {
            match self.hits.get_mut(*label) {
                Some(count) => *count += 1,
                None => {
                    self.hits.insert(label.to_string(), 1);
                }
            }
        }
        if !passed {
            self.wrong += 1;
            if self.wrong <= SHOWN {
                println!("  failed [{}] {}", labels.join("; "), detail());
            }
        }
    }

    /// Runs a suite and prints its line. `stored` is the number of cases that must at least run.
    pub fn run(definition: &Definition, stored: Option<u64>) -> Outcome {
        let mut suite = Suite {
            cases: 0,
            wrong: 0,
            hits: HashMap::new(),
        };
        (definition.run)(&mut suite);
        let mut failed = suite.wrong;
        for label in (definition.labels)() {
            if !suite.hits.contains_key(&label) {
                println!("  failed: label never hit: {label}");
                failed += 1;
            }
        }
        match stored {
            None => {
                println!("  failed: no stored count");
                failed += 1;
            }
            Some(stored) if suite.cases < stored => {
                println!("  failed: {} cases ran, {stored} are stored", suite.cases);
                failed += 1;
            }
            Some(_) => {}
        }
        println!(
            "suite {}: {} cases, {failed} failed",
            definition.name, suite.cases
        );
        Outcome {
            passed: suite.cases - suite.wrong,
            failed,
        }
    }
}

/// What the detail of a failure says of outputs with their guards.
pub fn right(holds: bool) -> &'static str {
    if holds { "right" } else { "or guards wrong" }
}

/// The bytes of hexadecimal digits.
pub fn from_hex(digits: &str) -> Vec<u8> {
    let byte = |at| u8::from_str_radix(&digits[at..at + 2], 16).expect("two digits a byte");
    (0..digits.len()).step_by(2).map(byte).collect()
}

/// Bytes in hex, cut to 200 characters.
pub fn hex(bytes: &[u8]) -> String {
    let mut text = String::new();
    for byte in bytes {
        if text.len() >= 200 {
            text.truncate(197);
            text.push_str("...");
            break;
        }
        text.push_str(&format!("{byte:02X}"));
    }
    format!("({} bytes) {text}", bytes.len())
}
