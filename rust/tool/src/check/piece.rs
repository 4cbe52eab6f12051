//! The part of a file that is checked.

use crate::args::{number, shown};
use crate::failure::{Failure, fail};
use crate::files;
use crate::reading::packet::SIZE;
use std::ffi::OsStr;

/// More than a check takes; what is longer is refused by its front alone.
const MOST_READ: u64 = 64 << 20;

/// Some packets of a file, and where they stand in it.
pub struct Piece {
    pub bytes: Vec<u8>,
    /// How long the whole file is, where that is known.
    pub whole: Option<u64>,
    /// Where the file's packet 0 begins.
    pub base: u64,
    /// The index in the file of each whole packet.
    pub origin: Vec<u64>,
    /// What was left out, in words.
    pub left_out: Vec<String>,
}

impl Piece {
    pub fn new(bytes: Vec<u8>, whole: Option<u64>, first: u64) -> Piece {
        let packets = (bytes.len() / SIZE) as u64;
        Piece {
            bytes,
            whole,
            base: 0,
            origin: (first..first + packets).collect(),
            left_out: Vec::new(),
        }
    }

    /// The index in the file of a packet of the piece. Behind the last one it goes on from there.
    pub fn packet(&self, place: u64) -> u64 {
        match self.origin.get(place as usize) {
            Some(packet) => *packet,
            None => {
                let beyond = place.saturating_sub(self.origin.len() as u64);
                self.origin.last().map_or(0, |last| last + 1) + beyond
            }
        }
    }

    /// The place in the file of a packet's first byte.
    pub fn byte(&self, place: u64) -> u64 {
        self.base + self.packet(place) * SIZE as u64
    }
}

/// The packets from one up to another; a bound that is left out is the file's.
#[derive(Clone, Copy, Debug)]
pub struct Range {
    pub from: u64,
    pub to: Option<u64>,
}

impl Range {
    pub const ALL: Range = Range { from: 0, to: None };

    /// `A..B`: A is the first, B the first that is left out.
    pub fn parse(text: &str) -> Result<Range, Failure> {
        let wrong = || Failure(format!("--packets: {text} is no range; 100..200 is one"));
        let (from, to) = text.split_once("..").ok_or_else(wrong)?;
        let bound = |text: &str| match text {
            "" => Ok(None),
            text => number(text)
                .filter(|n| *n < 1 << 48)
                .map(Some)
                .ok_or_else(wrong),
        };
        let range = Range {
            from: bound(from)?.unwrap_or(0),
            to: bound(to)?,
        };
        match range.to {
            Some(to) if to <= range.from => fail(format!("--packets: {text} has no packet")),
            _ => Ok(range),
        }
    }
}

/// Reads the packets of a range.
pub fn read(name: &OsStr, range: Range) -> Result<Piece, Failure> {
    let size = SIZE as u64;
    let most = match range.to {
        Some(to) => ((to - range.from) * size).min(MOST_READ),
        None => MOST_READ,
    };
    let part = files::read_part(name, range.from * size, most)?;
    let mut piece = Piece::new(part.bytes, part.whole, range.from);
    if piece.bytes.is_empty() && range.from > 0 {
        return fail(format!(
            "{}: there is no packet {}",
            shown(name),
            range.from
        ));
    }
    if range.from > 0 || range.to.is_some() {
        let (first, behind) = (range.from, range.from + piece.origin.len() as u64);
        let words = format!(
            "all packets but {first} to {} (--packets)",
            behind.saturating_sub(1)
        );
        piece.left_out.push(words);
    }
    Ok(piece)
}
