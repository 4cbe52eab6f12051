//! leb128: the reading against a second definition of it, without the library.

use crate::helpers::leb128::{form, shortest};
use crate::helpers::obu::strings;
use crate::kit::{Definition, Suite, hex, labels};
use reference::obu::{Leb128, leb128};

pub const SUITE: Definition = Definition {
    name: "leb128",
    labels: || {
        labels(&[
            "5: leb128 cut short",
            "5: leb128 over 8 bytes",
            "5: leb128 value over 4,294,967,295",
            "shortest form",
            "longer form",
            "width 8",
            "value 4,294,967,295",
            "value 4,294,967,296",
            "bytes after it",
        ])
    },
    run,
};

/// The same by the places of the top bits, and the value from its high end.
fn second(bytes: &[u8]) -> Result<Leb128, &'static str> {
    let last = match bytes.iter().take(8).position(|&byte| byte < 128) {
        Some(last) => last,
        _ => {
            let cut_short = bytes.len() < 8;
            return Err(if cut_short {
                "5: leb128 cut short"
            } else {
                "5: leb128 over 8 bytes"
            });
        }
    };
    let mut value = 0;
    for &byte in bytes[..=last].iter().rev() {
        value = value * 128 + u64::from(byte % 128);
    }
    if value >= 1 << 32 {
        return Err("5: leb128 value over 4,294,967,295");
    }
    Ok(Leb128 {
        value,
        width: last + 1,
    })
}

fn one(suite: &mut Suite, bytes: &[u8], more: &[&str]) {
    let got = leb128(bytes);
    let mut labels = more.to_vec();
    match &got {
        Err(condition) => labels.push(condition),
        Ok(read) => {
            labels.push(if read.width == shortest(read.value) {
                "shortest form"
            } else {
                "longer form"
            });
            if read.width == 8 {
                labels.push("width 8");
            }
            if read.width < bytes.len() {
                labels.push("bytes after it");
            }
        }
    }
    suite.case(&labels, got == second(bytes), || {
        format!("{got:?} {}", hex(bytes))
    });
}

const ALPHABET: [u8; 5] = [0x00, 0x0F, 0x10, 0x80, 0xFF];

fn run(suite: &mut Suite) {
    for len in 0..=9 {
        for bytes in strings(&ALPHABET, len) {
            one(suite, &bytes, &[]);
        }
    }

    // Every form of values around the powers of two reads as its value and width.
    for power in 0..56 {
        for value in [(1u64 << power) - 1, 1 << power, (1 << power) + 1] {
            for width in shortest(value)..=8 {
                let bytes = form(value, width);
                let got = leb128(&bytes);
                let passed = if value <= 4_294_967_295 {
                    got == Ok(Leb128 { value, width })
                } else {
                    got == Err("5: leb128 value over 4,294,967,295")
                };
                let label = match value {
                    4_294_967_295 => "value 4,294,967,295",
                    4_294_967_296 => "value 4,294,967,296",
                    _ => "form",
                };
                suite.case(&[label], passed, || format!("{value} in {width}: {got:?}"));
                for cut in 0..width {
                    one(suite, &bytes[..cut], &[]);
                }
                let mut nine = bytes.clone();
                nine.resize(8, 0);
                nine.iter_mut().for_each(|byte| *byte |= 0x80);
                nine.push(0);
                one(suite, &nine, &[]);
            }
        }
    }
}
