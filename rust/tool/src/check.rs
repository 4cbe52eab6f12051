//! A checked file: the library's verdict, and what the tool shows beside it.

pub mod comparison;
pub mod found;
pub mod hints;
pub mod json;
pub mod listing;
pub mod piece;
pub mod text;
pub mod trim;
pub mod units;

use crate::library::{self, Checked, Edition, Refused};
use crate::reading::finding::Finding;
use crate::reading::packet::SIZE;
use crate::reading::scan::Scan;
use piece::Piece;
use units::UnitLine;

/// All that is shown of one file.
pub struct Report {
    pub name: String,
    pub piece: Piece,
    pub edition: Edition,
    pub checked: Checked,
    pub refusal: Option<Shown>,
    /// The tool's own reading of the whole piece.
    pub scan: Scan,
    /// A line a unit, where they are asked for.
    pub units: Option<Vec<UnitLine>>,
}

/// A refusal with what stands at its place.
pub struct Shown {
    pub refused: Refused,
    pub found: Vec<Finding>,
    pub hints: Vec<String>,
}

impl Report {
    /// Checks a piece of a file.
    pub fn new(name: String, piece: Piece, edition: Edition, units: bool) -> Report {
        let checked = library::check(edition, &piece.bytes);
        let packets = piece.bytes.len() / SIZE;
        let scan = Scan::over(&piece.bytes, packets.min(library::MOST_PACKETS), edition);
        let refusal = checked.refused().map(|refused| Shown {
            refused,
            found: found::findings(&piece, edition, refused),
            hints: hints::hints(&piece, edition, refused),
        });
        let units = if units {
            Some(units::lines(&checked, &scan))
        } else {
            None
        };
        Report {
            name,
            piece,
            edition,
            checked,
            refusal,
            scan,
            units,
        }
    }

    /// How many bytes the units have together.
    pub fn unit_bytes(&self) -> usize {
        self.checked
            .units()
            .iter()
            .map(|unit| unit.bytes.len())
            .sum()
    }
}

/// Whether a refusal is one of a unit, whose place is the packet that began its PES.
pub fn is_of_unit(number: u64) -> bool {
    matches!(number, 1..=7 | 9 | 10 | 42)
}
