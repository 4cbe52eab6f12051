//! Rooms of reading around the boundary of each of the three outputs.

use crate::helpers::sheet::{Caller, any_sheet};
use crate::kit::{Definition, Random, Suite, labels};
use reference::refusal::OUTPUT_TOO_SHORT;

pub const SUITE: Definition = Definition {
    name: "sheet-rooms",
    labels: || {
        let mut list = labels(&["read", OUTPUT_TOO_SHORT, "all three", "no rooms"]);
        for what in WHAT {
            for stand in ["none", "one short", "exactly enough", "one more"] {
                list.push(format!("{what}: {stand}"));
            }
        }
        list
    },
    run,
};

const WHAT: [&str; 3] = ["streams", "units", "OBUs"];

fn run(suite: &mut Suite) {
    let mut caller = Caller::default();
    let mut random = Random::new(604);
    for _ in 0..1500 {
        let (streams, units) = (random.below(13), random.below(8));
        let sheet = any_sheet(&mut random, streams, units, 5);
        let bytes = sheet.bytes();
        let needs = sheet.numbers().map(|numbers| numbers.len());
        for (place, what) in WHAT.iter().enumerate() {
            let need = needs[place];
            for (room, stand) in [
                (0, "none"),
                (need.saturating_sub(4), "four short"),
                (need.saturating_sub(2), "two short"),
                (need.saturating_sub(1), "one short"),
                (need, "exactly enough"),
                (need + 1, "one more"),
            ] {
                let mut rooms = needs;
                rooms[place] = room;
                let label = format!("{what}: {stand}");
                caller.read(suite, &bytes, rooms, &[&label]);
            }
        }
        for _ in 0..6 {
            let rooms = needs.map(|need| (need + 2).saturating_sub(random.below(5)));
            caller.read(suite, &bytes, rooms, &["all three"]);
        }
        caller.read(suite, &bytes, [0; 3], &["no rooms"]);
    }
}
