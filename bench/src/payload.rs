//! Escaping and unescaping one OBU.

use crate::input::{Clip, Kind, Size, Source};
use crate::measure::{Case, Peer, Plan, Row, touched};
use crate::peers::{lavc, plain, sse2};
use av1ts::Answer;
use av1ts::payload::{escape, unescape};
use reference::payload::escaped;

pub fn measure(plan: &Plan, clip: &Clip, rows: &mut Vec<Row>) -> Result<(), String> {
    for row in [escape_row, unescape_row] {
        for &size in plan.sizes {
            for kind in Kind::ALL {
                rows.push(row(plan, kind, size, obus(plan, kind, size, clip))?);
            }
        }
    }
    Ok(())
}

/// Different OBUs of one length.
fn obus(plan: &Plan, kind: Kind, size: Size, clip: &Clip) -> Vec<Vec<u8>> {
    let mut source = Source::new(kind, clip);
    (0..plan.inputs(size.0))
        .map(|_| source.bytes(size.0))
        .collect()
}

/// Room for any OBU of a length when escaped.
fn room(len: usize) -> Vec<u8> {
    touched(len / 2 * 3)
}

/// An escaped OBU, cut to its length before: the front of a legal payload is legal.
fn payload(obu: &[u8]) -> Vec<u8> {
    let mut payload = escaped(obu);
    payload.truncate(obu.len());
    payload
}

/// A function from bytes to bytes, on the inputs of a case.
fn way(f: impl Fn(&[u8], &mut [u8]) -> Answer) -> impl Fn(&Vec<u8>, &mut Vec<u8>) -> Answer {
    move |input, out| f(input, out)
}

fn escape_row(plan: &Plan, kind: Kind, size: Size, obus: Vec<Vec<u8>>) -> Result<Row, String> {
    Case::new(plan, ["escape", kind.name(), size.1], &obus).compare(
        &mut room(size.0),
        &way(escape),
        &[
            (Peer::PlainC, &way(plain::escape)),
            (Peer::Sse2, &way(sse2::escape)),
        ],
    )
}

fn unescape_row(plan: &Plan, kind: Kind, size: Size, obus: Vec<Vec<u8>>) -> Result<Row, String> {
    let payloads: Vec<Vec<u8>> = obus.iter().map(|obu| payload(obu)).collect();
    Case::new(plan, ["unescape", kind.name(), size.1], &payloads).compare(
        &mut room(size.0),
        &way(unescape),
        &[
            (Peer::PlainC, &way(plain::unescape)),
            (Peer::Lavc, &way(lavc::unescape)),
            (Peer::Sse2, &way(sse2::unescape)),
        ],
    )
}
