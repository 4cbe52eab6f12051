//! The worked cases of escaping and unescaping, each with the answer that the paper says.

use crate::helpers::payload::Caller;
use crate::kit::{Definition, Suite, hex, labels};
use reference::payload;

pub const SUITE: Definition = Definition {
    name: "payload-worked",
    labels: || {
        labels(&[
            "worked: escape",
            "worked: unescape",
            "worked: unescape refused",
            "room exactly enough",
            "8: one byte short",
            "10: 00 00 00",
            "10: 00 00 01",
            "10: 00 00 02",
            "10: 00 00 03 then above 3",
        ])
    },
    run,
};

/// An OBU and what escaping gives.
const ESCAPE: &[(&[u8], &[u8])] = &[
    (&[], &[]),
    (&[0, 0], &[0, 0]),
    (&[0, 0, 0], &[0, 0, 3, 0]),
    (&[0, 0, 3], &[0, 0, 3, 3]),
    (&[0, 0, 4], &[0, 0, 4]),
    (&[0, 0, 0, 0, 0], &[0, 0, 3, 0, 0, 3, 0]),
    (&[0, 0, 1], &[0, 0, 3, 1]),
    (&[0, 0, 2], &[0, 0, 3, 2]),
    (&[0x12, 0], &[0x12, 0]),
    (&[0, 0, 3, 0, 0, 3], &[0, 0, 3, 3, 0, 0, 3, 3]),
];

/// A payload, its OBU and the number of bytes dropped.
const UNESCAPE: &[(&[u8], &[u8], usize)] = &[
    (&[], &[], 0),
    (&[0, 0, 3], &[0, 0], 1),
    (&[0, 0], &[0, 0], 0),
    (&[0, 0, 3, 3], &[0, 0, 3], 1),
    (&[0, 0, 4], &[0, 0, 4], 0),
    (&[0, 0, 3, 0, 0, 4], &[0, 0, 0, 0, 4], 1),
    (&[0, 0, 3, 0, 0, 3, 0], &[0, 0, 0, 0, 0], 2),
    (&[0, 0, 3, 0, 0, 3], &[0, 0, 0, 0], 2),
];

/// A payload that is refused with 10, and the place.
const ILLEGAL: &[(&[u8], u64)] = &[
    (&[0, 0, 3, 4], 0),
    (&[0x41, 0, 0, 0], 1),
    (&[0, 0, 0], 0),
    (&[0, 0, 1], 0),
    (&[0, 0, 2], 0),
    (&[0, 0, 3, 0, 0, 1], 3),
    (&[0, 0, 3, 0, 0, 3, 4], 3),
    (&[0, 0, 4, 0, 0, 2, 0, 0, 0], 3),
];

fn run(suite: &mut Suite) {
    let mut caller = Caller::default();
    for &(obu, payload) in ESCAPE {
        let mut out = [0xEE; 16];
        let got = av1ts::payload::escape(obu, &mut out[..payload.len()]);
        let passed = got.number == 0
            && got.count == payload.len() as u64
            && out[..payload.len()] == *payload
            && out[payload.len()..].iter().all(|&byte| byte == 0xEE)
            && payload::escaped(obu) == payload;
        suite.case(&["worked: escape"], passed, || hex(obu));
        caller.escape(suite, obu, payload.len(), &[]);
        if !payload.is_empty() {
            caller.escape(suite, obu, payload.len() - 1, &[]);
        }
    }
    for &(payload, obu, dropped) in UNESCAPE {
        let mut out = [0xEE; 16];
        let got = av1ts::payload::unescape(payload, &mut out[..obu.len()]);
        let second = payload::unescaped(payload);
        let passed = got.number == 0
            && got.count == obu.len() as u64
            && got.dropped == dropped as u64
            && out[..obu.len()] == *obu
            && out[obu.len()..].iter().all(|&byte| byte == 0xEE)
            && second.obu == obu
            && second.dropped == dropped;
        suite.case(&["worked: unescape"], passed, || hex(payload));
        caller.unescape(suite, payload, obu.len(), &[]);
        if !obu.is_empty() {
            caller.unescape(suite, payload, obu.len() - 1, &[]);
        }
    }
    for &(payload, place) in ILLEGAL {
        let mut out = [0xEE; 16];
        let got = av1ts::payload::unescape(payload, &mut out);
        let second = payload::unescape(payload, 16);
        let passed = got.number == 10
            && got.place == place
            && out == [0xEE; 16]
            && matches!(second, Err(refusal) if (refusal.number, refusal.place) == (10, place));
        suite.case(&["worked: unescape refused"], passed, || hex(payload));
        caller.unescape(suite, payload, payload.len(), &[]);
        caller.unescape(suite, payload, 0, &[]);
    }
}
