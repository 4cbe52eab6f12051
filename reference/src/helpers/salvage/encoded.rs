//! Access units as encoders wrote them, each OBU in hexadecimal digits.

use crate::kit::from_hex;

/// Of two pictures of 256 by 128 in four tiles (libaom), of ten of 64 by 64 with hidden frames and
/// frames that are shown again (SVT-AV1), and of a test picture of 64 by 48 (libaom).
const UNITS: &[&[&str]] = &[
    &[
        "1200",
        "0a0a00000003b7fff36be601",
        "1a0a1000d3e0000005800005",
        "220b8802000000011dc0011dc0",
        "220bd802000000011dc0011dc0",
    ],
    &[
        "1200",
        "1a113003c080000006d3f00000058000010080",
        "2209880100000099249924",
        "2209d80100000099249924",
    ],
    &[
        "1200",
        "0a0a00000002afff9f7f3008",
        "320d1000f0823ffe08030000080110",
    ],
    &["1200", "32132808002492491def043ef9e78600000c009c10"],
    &["321328040104920015f20218504030000060009b70"],
    &["1200", "1a01d8"],
    &[
        "1200",
        "3222320301044000036d000001401c004000dfb550b010ce5f043a6f317ed594055ac680",
    ],
];

/// The units, each a list of OBUs.
pub fn units() -> Vec<Vec<Vec<u8>>> {
    UNITS
        .iter()
        .map(|unit| unit.iter().map(|obu| from_hex(obu)).collect())
        .collect()
}
