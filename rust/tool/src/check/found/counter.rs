//! 24: the counter that was due and the one that stands there.

use crate::check::piece::Piece;
use crate::reading::finding::Finding;
use crate::reading::packet::{Packet, packet};
use crate::reading::pid;
use crate::reading::scan::{Class, Scan};

pub fn findings(piece: &Piece, place: usize, scan: &Scan) -> Vec<Finding> {
    let here = packet(&piece.bytes, place);
    let mut found = vec![Finding::new("PID", stream(here.pid(), scan))];
    let last = match scan.last.get(&here.pid()) {
        Some(last) => *last,
        None => return found,
    };
    let before = packet(&piece.bytes, last.packet);
    found.push(Finding::new(
        "last packet of this PID",
        format!(
            "{}, counter {}",
            piece.packet(last.packet as u64),
            before.counter()
        ),
    ));
    let due = due(before, here);
    found.push(Finding::new("counter due", due));
    let line = Finding::new("counter found", here.counter());
    found.push(line.wrong(words(piece, here, before, due, scan)));
    found
}

/// One more with payload, the same without.
fn due(before: Packet, here: Packet) -> u8 {
    (before.counter() + u8::from(here.has_payload())) % 16
}

fn words(piece: &Piece, here: Packet, before: Packet, due: u8, scan: &Scan) -> String {
    let copies = scan.copies(&piece.bytes, here);
    if copies > 0 {
        return format!("the last packet sent again, copy {}", copies + 1);
    }
    if here.counter() == before.counter() {
        return "the last counter again, with other bytes".to_string();
    }
    let lost = (here.counter() + 16 - due) % 16;
    let packets = if lost == 1 {
        "1 packet is lost"
    } else {
        "packets are lost"
    };
    match lost {
        1 => format!("{packets}, or 17, 33 and so on"),
        lost => format!(
            "{lost} {packets}, or {}, {} and so on",
            lost + 16,
            lost + 32
        ),
    }
}

/// A PID and what it is.
pub fn stream(number: u16, scan: &Scan) -> String {
    let what = match scan.class(number) {
        Class::Null => "null packets",
        Class::Section if number == 0 => "the PAT",
        Class::Section => "the PMT",
        Class::Av1 => "the AV1 stream",
        Class::Listed => "another stream of the PMT",
        Class::Unlisted => "not listed",
    };
    format!("{}, {what}", pid(number))
}
