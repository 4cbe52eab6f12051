//! --trim: a cut of a longer stream, from the first PAT to the last whole PES.

use super::piece::Piece;
use crate::library::Edition;
use crate::reading::packet::{SIZE, packet};
use crate::reading::scan::{Scan, pes_bytes};
use crate::reading::{counted, pes};

/// How many packets in a row have the sync byte where a stream is taken to begin.
const SURE: usize = 5;

/// Where the first packet begins, by the sync bytes.
pub fn aligned(bytes: &[u8], size: usize) -> Option<usize> {
    (0..size.min(bytes.len())).find(|at| {
        let syncs = bytes[*at..].iter().step_by(size).take(SURE);
        bytes.len() - at > size && syncs.into_iter().all(|byte| *byte == 0x47)
    })
}

/// The piece without what a check cannot take, and what that was.
pub fn trim(piece: Piece, edition: Edition) -> Piece {
    let piece = whole_packets(piece);
    let piece = from_first_pat(piece);
    let piece = from_first_start(piece, edition);
    to_last_whole(piece, edition)
}

fn whole_packets(mut piece: Piece) -> Piece {
    let at = aligned(&piece.bytes, SIZE).unwrap_or(0);
    if at > 0 {
        piece.bytes.drain(..at);
        let first = piece.origin.first().copied().unwrap_or(0);
        piece.base = at as u64;
        piece.origin = (first..first + (piece.bytes.len() / SIZE) as u64).collect();
        piece.left_out.push(format!(
            "{} before the first whole packet",
            counted(at, "byte")
        ));
    }
    let rest = piece.bytes.len() % SIZE;
    if rest > 0 {
        piece.bytes.truncate(piece.bytes.len() - rest);
        piece.left_out.push(format!(
            "{} behind the last whole packet",
            counted(rest, "byte")
        ));
    }
    piece
}

/// The packets that `keep` keeps; where it leaves some out, the words are noted with their number.
fn kept(mut piece: Piece, keep: impl Fn(usize) -> bool, words: &str) -> Piece {
    let count = piece.origin.len();
    let left: Vec<usize> = (0..count).filter(|index| keep(*index)).collect();
    if left.len() == count {
        return piece;
    }
    let note = format!("{} {words}", counted(count - left.len(), "packet"));
    piece.left_out.push(note);
    let bytes = left.iter().flat_map(|index| packet(&piece.bytes, *index).0);
    piece.bytes = bytes.copied().collect();
    piece.origin = left.iter().map(|index| piece.origin[*index]).collect();
    piece
}

fn from_first_pat(piece: Piece) -> Piece {
    let is_pat = |index: &usize| {
        let here = packet(&piece.bytes, *index);
        here.pid() == 0 && here.start() && here.has_payload()
    };
    match (0..piece.origin.len()).find(is_pat) {
        Some(first) => kept(piece, |index| index >= first, "before the first PAT"),
        None => piece,
    }
}

/// Leaves out AV1 packets that continue a PES from before the cut, and those before any PCR.
fn from_first_start(piece: Piece, edition: Edition) -> Piece {
    let scan = Scan::over(&piece.bytes, piece.origin.len(), edition);
    let (pid, pcr_pid, table) = match (scan.av1_pid(), scan.pcr_pid(), &scan.pmt) {
        (Some(pid), Some(pcr_pid), Some(table)) => (pid, pcr_pid, table.packet),
        _ => return piece,
    };
    // From `from` on the AV1 packets are kept, if the PES that begins at `index` is the first.
    let mut from = table + 1;
    let mut clock = false;
    for index in table + 1..piece.origin.len() {
        let here = packet(&piece.bytes, index);
        clock |= here.pid() == pcr_pid && here.pcr().is_some();
        if here.pid() != pid || !here.has_payload() {
            continue;
        }
        if here.start() && clock {
            let words = "of a PES that began before the cut or before any PCR";
            let keep =
                |at: usize| at <= table || at >= from || packet(&piece.bytes, at).pid() != pid;
            let left: Vec<bool> = (0..piece.origin.len()).map(keep).collect();
            return kept(piece, |at| left[at], words);
        }
        from = index + 1;
        clock &= pcr_pid != pid;
    }
    piece
}

/// Ends before the last PES where that one is not known to be whole.
fn to_last_whole(piece: Piece, edition: Edition) -> Piece {
    let scan = Scan::over(&piece.bytes, piece.origin.len(), edition);
    let last = match scan.starts.last() {
        Some(last) => *last,
        None => return piece,
    };
    let bytes = pes_bytes(&piece.bytes, last);
    let stated = usize::from(pes::read(&bytes).length);
    if stated != 0 && bytes.len() >= 6 + stated {
        return piece;
    }
    let words = if stated == 0 {
        "from the last PES on, of which no length says that it is whole"
    } else {
        "from the last PES on, which is not whole"
    };
    kept(piece, |index| index < last, words)
}
