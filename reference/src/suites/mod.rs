//! The suites, in folders by topic. What several suites use stands in `helpers`.

mod descriptor;
mod mastering;
mod obu;
mod payload;
mod queue;
mod replay;
mod salvage;
mod segment;
mod sequence;
mod sheet;
mod unit;
mod walk;

use crate::kit::Definition;

/// The suites that run. With the reference in both roles, those that can run so.
pub fn all(itself: bool) -> Vec<&'static Definition> {
    let mut all = Vec::new();
    if !itself {
        all.extend(payload::SUITES);
        all.extend(obu::SUITES);
        all.extend(unit::SUITES);
        all.extend(walk::SUITES);
        all.extend(replay::SUITES);
        all.push(&queue::states::SUITE);
        all.extend(mastering::SUITES);
    }
    all.extend(descriptor::SUITES);
    all.extend(salvage::SUITES);
    all.extend(queue::SUITES);
    all.extend(segment::SUITES);
    all.extend(sequence::SUITES);
    all.extend(sheet::SUITES);
    all
}
