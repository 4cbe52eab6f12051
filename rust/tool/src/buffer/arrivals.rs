//! When which bytes arrive.

use crate::failure::{Failure, fail};
use crate::library::Edition;
use crate::reading::packet::{SIZE, packet};
use crate::reading::scan::Scan;

#[derive(Clone, Copy, Debug)]
pub struct Arrival {
    /// Ticks of 27 MHz.
    pub time: u64,
    pub bytes: u64,
    /// The packet of the segment.
    pub packet: Option<usize>,
}

/// The lines of a trace.
pub fn of_trace(bytes: &[u8]) -> Result<Vec<Arrival>, Failure> {
    let text = match std::str::from_utf8(bytes) {
        Ok(text) => text,
        Err(_) => return fail("neither packets of 188 bytes nor a trace in text"),
    };
    let mut arrivals = Vec::new();
    for (index, line) in text.lines().enumerate() {
        let line = line.split('#').next().unwrap_or("");
        let words: Vec<&str> = line.split_whitespace().collect();
        let numbers: Vec<u64> = words.iter().filter_map(|word| word.parse().ok()).collect();
        match (words.len(), numbers.as_slice()) {
            (0, _) => {}
            (2, [time, bytes]) => arrivals.push(Arrival {
                time: *time,
                bytes: *bytes,
                packet: None,
            }),
            _ => {
                return fail(format!(
                    "line {}: a time and a byte count are due",
                    index + 1
                ));
            }
        }
    }
    Ok(arrivals)
}

/// How many ticks a PCR counts before it begins anew.
const WRAP: u64 = (1 << 33) * 300;

/// The AV1 packets of a segment of either edition, with times taken evenly between PCRs.
pub fn of_segment(segment: &[u8]) -> Result<Vec<Arrival>, Failure> {
    let read = |edition| Scan::over(segment, segment.len() / SIZE, edition);
    let current = read(Edition::Current);
    let scan = if current.av1_pid().is_some() {
        current
    } else {
        read(Edition::Draft)
    };
    let pid = match scan.av1_pid() {
        Some(pid) => pid,
        None => return fail("there is no AV1 stream in a PMT"),
    };
    let clock = unwrapped(&scan.pcrs);
    if clock.len() < 2 {
        return fail(
            "fewer than two PCRs: the packets have no times; a TRACE can be given instead",
        );
    }
    let indices = (0..segment.len() / SIZE).filter(|index| packet(segment, *index).pid() == pid);
    let arrivals = indices.map(|index| Arrival {
        time: time(&clock, index),
        bytes: SIZE as u64,
        packet: Some(index),
    });
    Ok(arrivals.collect())
}

/// The PCRs as one rising count. Where one goes back by less than half, it stays so.
fn unwrapped(pcrs: &[(usize, u64)]) -> Vec<(usize, u64)> {
    let mut turns = 0;
    let mut last = 0;
    let mut clock = Vec::new();
    for (index, pcr) in pcrs {
        if last > *pcr && last - pcr > WRAP / 2 {
            turns += WRAP;
        }
        last = *pcr;
        clock.push((*index, turns + pcr));
    }
    clock
}

/// A packet's time: between two PCRs by their rate, before the first and behind the last by that of
/// the nearest two.
fn time(clock: &[(usize, u64)], index: usize) -> u64 {
    let behind = clock
        .iter()
        .position(|(at, _)| *at >= index)
        .unwrap_or(clock.len() - 1);
    let behind = behind.max(1);
    let ((from, start), (to, end)) = (clock[behind - 1], clock[behind]);
    let ticks = i128::from(end) - i128::from(start);
    let passed = (index as i128 - from as i128) * ticks / (to as i128 - from as i128);
    (i128::from(start) + passed).max(0) as u64
}
