//! Mastering figures read and written, compared with the reference.

use crate::helpers::payload::{before_8, outcome_label, refused, written};
use crate::kit::{Given, Lent, Suite, from_hex, hex};
use av1ts::mastering::{Mastering, read_mastering, write_mastering};
use reference::mastering::{self, FIGURES, WRITTEN};

/// The values of a display in ST 2086, in the content's order, and their content. The contents are
/// those that SVT-AV1 1.4.1 and rav1e 0.5.1 write, both the same, for `--mastering-display` with
/// these values, as `G(0.265,0.690)B(0.150,0.060)R(0.680,0.320)WP(0.3127,0.3290)L(1000,0.0001)` for
/// the first.
pub struct Display {
    pub name: &'static str,
    primaries: [u64; 6],
    pub luminances: [u64; 2],
    /// In hexadecimal digits.
    content: &'static str,
}

/// Displays with the primaries of DCI-P3, BT.2020 and BT.709, red, green and blue, and white D65.
pub const DISPLAYS: [Display; 3] = [
    Display {
        name: "P3-D65, 1,000 to 0.0001 cd/m2",
        primaries: [34_000, 16_000, 13_250, 34_500, 7_500, 3_000],
        luminances: [10_000_000, 1],
        content: "02AE1451EC43D7B0A426660F5C500D54390003E8000000000280",
    },
    Display {
        name: "BT.2020, 4,000 to 0.005 cd/m2",
        primaries: [35_400, 14_600, 8_500, 39_850, 6_550, 2_300],
        luminances: [40_000_000, 50],
        content: "02B53F4AC12B85CC0821890BC7500D5439000FA0000000005280",
    },
    Display {
        name: "BT.709, 100 to 0.01 cd/m2",
        primaries: [32_000, 16_500, 15_000, 30_000, 7_500, 3_000],
        luminances: [1_000_000, 100],
        content: "02A3D7547B4CCD999A26660F5C500D543900006400000000A480",
    },
];

impl Display {
    /// All ten values, in the content's order.
    pub fn values(&self) -> [u64; 10] {
        let [a, b, c, d, e, f] = self.primaries;
        let [max, min] = self.luminances;
        [a, b, c, d, e, f, D65[0], D65[1], max, min]
    }

    pub fn content(&self) -> Vec<u8> {
        from_hex(self.content)
    }
}

/// The white point of all of them.
const D65: [u64; 2] = [15_635, 16_450];

/// The buffers of one caller, used again from call to call.
#[derive(Default)]
pub struct Caller {
    content: Given<u8>,
    values: Given<u64>,
    lent: Lent<u8>,
}

/// The doubles' bits: they are compared so.
fn bits(mastering: &Mastering) -> [u64; 10] {
    mastering.figure.map(f64::to_bits)
}

impl Caller {
    /// Reads a content and compares with the reference.
    pub fn read(&mut self, suite: &mut Suite, content: &[u8], more: &[&str]) {
        self.content.give(content);
        let got = read_mastering(self.content.part());
        let read = mastering::read(content);
        let (number, expected, label) = match &read {
            Err(refusal) => (refusal.number, [0; 10], refusal.condition),
            Ok(bits) => (0, *bits, "read"),
        };
        let passed = (got.number, got.place) == (number, 0)
            && bits(&got) == expected
            && self.content.unchanged(content);
        suite.case(&[more, &[label]].concat(), passed, || {
            format!(
                "read: expected {number} and {expected:X?}, got {got:?}, {:X?}; input {}",
                bits(&got),
                hex(content)
            )
        });
    }

    /// Writes values into a room, compares with the reference, and reads what was written.
    pub fn write(&mut self, suite: &mut Suite, values: &[u64; 10], room: usize, more: &[&str]) {
        self.values.give(values);
        let given: &[u64; 10] = self.values.part().try_into().expect("ten were given");
        let got = write_mastering(given, self.lent.lend(room));
        let wrote = mastering::write(values, room);
        let mut labels = [more, &[outcome_label(&wrote, WRITTEN, room)]].concat();
        if before_8(&wrote, WRITTEN, room) {
            labels.push("49 before 8");
        }
        let (expected, bytes): (_, &[u8]) = match &wrote {
            Err(refusal) => (refused(refusal), &[]),
            Ok(bytes) => (written(WRITTEN), bytes),
        };
        let passed = got == expected && self.lent.holds(bytes) && self.values.unchanged(values);
        suite.case(&labels, passed, || {
            format!(
                "write, room {room}: expected {expected:?} and {}, got {got:?} and {}; {values:?}",
                hex(bytes),
                hex(self.lent.part())
            )
        });

        // What was written is read as the nearest figures that the content can say.
        if wrote.is_ok() {
            let back = read_mastering(&self.lent.part()[..WRITTEN]);
            let mut near = back.number == 0;
            for ((&figure, &value), kind) in back.figure.iter().zip(values).zip(&FIGURES) {
                let exact = value as f64 / kind.steps as f64;
                let half_step = 0.5 / f64::from(1u32 << kind.power);
                let highest = kind.size == 2 && value == 50_000 && figure == 65_535.0 / 65_536.0;
                near &= highest || (figure - exact).abs() <= half_step;
            }
            suite.case(&["written, then read"], near, || {
                format!("written, then read: {back:?}; {values:?}")
            });
        }
    }
}
