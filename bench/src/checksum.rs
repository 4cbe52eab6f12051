//! The CRC of sections, short and long.

use crate::input::{Clip, Kind, SIZES, Size, Source};
use crate::measure::{Case, Peer, Plan, Row, asking, touched};
use crate::measured;
use crate::peers::{lavc, plain};

/// A PAT or a PMT of one program has some 20 bytes.
const SHORTEST: Size = (20, "20 B");

pub fn measure(plan: &Plan, clip: &Clip, rows: &mut Vec<Row>) -> Result<(), String> {
    let bytes = Source::new(Kind::Random, clip).bytes(SIZES[3].0);
    for &size in [SHORTEST].iter().chain(plan.sizes) {
        let inputs: Vec<&[u8]> = bytes
            .chunks_exact(size.0)
            .take(plan.inputs(size.0))
            .collect();
        rows.push(row(plan, size, &inputs)?);
    }
    Ok(())
}

fn row(plan: &Plan, size: Size, inputs: &[&[u8]]) -> Result<Row, String> {
    Case::new(plan, ["crc32", Kind::Random.name(), size.1], inputs).compare(
        &mut touched(size.0),
        &asking(measured::crc32),
        &[
            (Peer::PlainC, &asking(plain::crc32)),
            (Peer::Lavc, &asking(lavc::crc32)),
        ],
    )
}
