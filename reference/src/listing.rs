//! The lister's text.

use crate::unit;
use std::fmt::Write;

/// "The lister program reads a carried unit of at most 65,536 bytes from standard input".
pub const MOST_LISTED: usize = 65_536;

/// The text for all bytes of standard input: "more prints `refused 2 0`. A refusal prints `refused`,
/// number, place." Otherwise "Header: OBU count, bytes dropped in all; then index, type, OBU length,
/// bytes dropped." And "The lister's OBU lines gain ` width w` at the end, 0 where no size is
/// present". Every line ends with a newline.
pub fn list(input: &[u8]) -> String {
    if input.len() > MOST_LISTED {
        return "refused 2 0\n".to_string();
    }
    let obus = match unit::accept(input) {
        Err(refusal) => return format!("refused {} {}\n", refusal.number, refusal.place),
        Ok(obus) => obus,
    };
    let mut text = format!(
        "obus {} removed {}\n",
        obus.len(),
        unit::total_dropped(&obus)
    );
    for (index, obu) in obus.iter().enumerate() {
        let (size, removed, width) = (obu.bytes.len(), obu.dropped, obu.width);
        writeln!(
            text,
            "{index} type {} size {size} removed {removed} width {width}",
            obu.kind.obu_type()
        )
        .expect("a string takes any text");
    }
    text
}
