//! Sequence headers of encoders, with what ffmpeg's trace_headers prints of them: against a
//! descriptor that agrees, with each field changed alone, and cut at every byte.

use crate::helpers::segment::Caller;
use crate::helpers::sequence::{FOUND, another, check, obu, packets, unit_of, video};
use crate::kit::{Definition, Random, Suite, from_hex, hex, labels};
use reference::comparison::Found;
use reference::compose::segment;
use reference::sequence::{self, Fields};

pub const SUITE: Definition = Definition {
    name: "sequence-real",
    labels: || {
        let mut list = labels(&FOUND[..9]);
        list.extend(labels(&["none found", "cut"]));
        for real in REAL {
            list.push(real.from.to_string());
        }
        list
    },
    run,
};

/// A header as an encoder wrote it.
struct Real {
    from: &'static str,
    content: &'static str,
    /// The nine fields as printed; a dash where nothing is printed, as the field is not coded.
    printed: &'static str,
    fields: Fields,
}

const REAL: &[Real] = &[
    Real {
        from: "libaom 3.6.0, 4:2:0 of 8 bits",
        content: "00000002aff79b5f2008",
        printed: "0 0 - 0 - 0 - - 0",
        fields: [0, 0, 0, 0, 0, 0, 1, 1, 0],
    },
    Real {
        from: "libaom, 4:2:0, colour description, position colocated",
        content: "00000002aff79b5f2202020288",
        printed: "0 0 - 0 - 0 - - 2",
        fields: [0, 0, 0, 0, 0, 0, 1, 1, 2],
    },
    Real {
        from: "libaom, 4:2:0, position vertical",
        content: "00000002aff79b5f2048",
        printed: "0 0 - 0 - 0 - - 1",
        fields: [0, 0, 0, 0, 0, 0, 1, 1, 1],
    },
    Real {
        from: "libaom, 4:2:0 of 10 bits, PQ",
        content: "00000002aff79b5f2a12201288",
        printed: "0 0 - 1 - 0 - - 2",
        fields: [0, 0, 0, 1, 0, 0, 1, 1, 2],
    },
    Real {
        from: "libaom, monochrome",
        content: "00000002aff79b5f2440",
        printed: "0 0 - 0 - 1 - - -",
        fields: [0, 0, 0, 0, 0, 1, 1, 1, 0],
    },
    Real {
        from: "libaom, 4:4:4 of 8 bits",
        content: "20000002aff79b5f2040",
        printed: "1 0 - 0 - - - - -",
        fields: [1, 0, 0, 0, 0, 0, 0, 0, 0],
    },
    Real {
        from: "libaom, sRGB",
        content: "20000002aff79b5f2404340080",
        printed: "1 0 - 0 - - - - -",
        fields: [1, 0, 0, 0, 0, 0, 0, 0, 0],
    },
    Real {
        from: "libaom, 4:2:2 of 8 bits",
        content: "40000002aff79b5f2020",
        printed: "2 0 - 0 - 0 - - -",
        fields: [2, 0, 0, 0, 0, 0, 1, 0, 0],
    },
    Real {
        from: "libaom, 4:2:2 of 10 bits",
        content: "40000002aff79b5f2810",
        printed: "2 0 - 1 0 0 - - -",
        fields: [2, 0, 0, 1, 0, 0, 1, 0, 0],
    },
    Real {
        from: "libaom, 4:2:0 of 12 bits",
        content: "40000002aff79b5f2c61",
        printed: "2 0 - 1 1 0 1 1 0",
        fields: [2, 0, 0, 1, 1, 0, 1, 1, 0],
    },
    Real {
        from: "libaom, 4:2:2 of 12 bits",
        content: "40000002aff79b5f2c44",
        printed: "2 0 - 1 1 0 1 0 -",
        fields: [2, 0, 0, 1, 1, 0, 1, 0, 0],
    },
    Real {
        from: "libaom, 4:4:4 of 12 bits",
        content: "40000002aff79b5f2c08",
        printed: "2 0 - 1 1 0 0 - -",
        fields: [2, 0, 0, 1, 1, 0, 0, 0, 0],
    },
    Real {
        from: "libaom, timing info, constant",
        content: "040000000400000067400000baaff79b5f2008",
        printed: "0 0 - 0 - 0 - - 0",
        fields: [0, 0, 0, 0, 0, 0, 1, 1, 0],
    },
    Real {
        from: "libaom, timing info and decoder model",
        content: "040000000400000065780000000a530000035f915f90baaff79b5f2008",
        printed: "0 0 - 0 - 0 - - 0",
        fields: [0, 0, 0, 0, 0, 0, 1, 1, 0],
    },
    Real {
        from: "rav1e 0.5.1, 4:2:0 of 8 bits",
        content: "000000f957fbc4215014",
        printed: "0 31 0 0 - 0 - - 0",
        fields: [0, 31, 0, 0, 0, 0, 1, 1, 0],
    },
    Real {
        from: "rav1e, 4:2:0 of 10 bits, PQ",
        content: "000000f957fbc4215509100954",
        printed: "0 31 0 1 - 0 - - 2",
        fields: [0, 31, 0, 1, 0, 0, 1, 1, 2],
    },
    Real {
        from: "rav1e, 4:2:2 of 8 bits",
        content: "400000f957fbc4215050",
        printed: "2 31 0 0 - 0 - - -",
        fields: [2, 31, 0, 0, 0, 0, 1, 0, 0],
    },
    Real {
        from: "rav1e, 4:4:4 of 8 bits",
        content: "200000f957fbc42150a0",
        printed: "1 31 0 0 - - - - -",
        fields: [1, 31, 0, 0, 0, 0, 0, 0, 0],
    },
    Real {
        from: "SVT-AV1 1.4.1, 4:2:0 of 8 bits",
        content: "0000000337ffe7dfc802",
        printed: "0 0 - 0 - 0 - - 0",
        fields: [0, 0, 0, 0, 0, 0, 1, 1, 0],
    },
    Real {
        from: "SVT-AV1, 4:2:0 of 10 bits, level 5.1",
        content: "000000699bfff3efe501",
        printed: "0 13 0 1 - 0 - - 0",
        fields: [0, 13, 0, 1, 0, 0, 1, 1, 0],
    },
];

impl Real {
    /// The fields are those that are printed, and the inferred values: 0, but for subsampling.
    fn is_printed(&self) -> bool {
        let printed = self.printed.split(' ');
        let subsampling = match (self.fields[0], self.fields[5]) {
            (_, 1) | (0, _) => (1, 1),
            (1, _) => (0, 0),
            _ => (1, 0),
        };
        let mut right = printed.clone().count() == 9;
        for (at, text) in printed.enumerate() {
            let inferred = match at {
                6 => subsampling.0,
                7 => subsampling.1,
                _ => 0,
            };
            right &= text.parse().unwrap_or(inferred) == self.fields[at];
        }
        right
    }
}

fn run(suite: &mut Suite) {
    let mut caller = Caller::default();
    let mut random = Random::new(404);
    for real in REAL {
        let content = from_hex(real.content);
        let read = sequence::read(&content);
        let passed = read == Ok(real.fields) && real.is_printed();
        suite.case(&[real.from], passed, || {
            format!("{} is read as {read:?}", hex(&content))
        });
        for _ in 0..20 {
            let units = [unit_of(&[obu(&mut random, &content)])];
            let agreeing = Some(video(&real.fields, 3, None));
            check(suite, &mut caller, agreeing, &units, None, &[real.from]);
            for field in 0..9 {
                let other = another(&mut random, &real.fields, field);
                let video = Some(video(&other, 3, None));
                let expected = Some((0, Found::Field(field)));
                check(suite, &mut caller, video, &units, expected, &[real.from]);
            }
            for count in 1..content.len() {
                let units = [unit_of(&[obu(&mut random, &content[..count])])];
                let bytes = segment(&packets(agreeing, &units));
                caller.check_wide(suite, &bytes, &["cut"]);
            }
        }
    }
}
