//! Which OBU may follow, so that the position that a unit has reached can be shown. The library's
//! table, which is proved, decides; this one is shown.

/// How far a unit has come.
#[derive(Clone, Copy, Debug, PartialEq, Eq)]
pub enum Position {
    Start,
    Front,
    Tiles,
    Ended,
    Whole,
}

impl Position {
    /// What may follow, in words.
    pub fn awaits(self) -> &'static str {
        match self {
            Position::Start => "the frame has not begun",
            Position::Front => "the frame has not begun",
            Position::Tiles => "a tile group is due",
            Position::Ended => "tile groups may follow, or the end",
            Position::Whole => "the frame is whole: nothing may follow",
        }
    }

    /// The position behind an OBU, where it may follow. `again`: it is a frame header that shows a
    /// frame again.
    pub fn behind(self, kind: u8, again: bool) -> Option<Position> {
        let before = matches!(self, Position::Start | Position::Front);
        let within = matches!(self, Position::Tiles | Position::Ended);
        match kind {
            0 | 1 | 5 | 9..=14 if before => Some(Position::Front),
            2 if self == Position::Start => Some(Position::Front),
            3 if before && again => Some(Position::Whole),
            3 if before => Some(Position::Tiles),
            4 if within => Some(Position::Ended),
            6 if before => Some(Position::Whole),
            7 if within => Some(Position::Tiles),
            15 if before => Some(Position::Front),
            15 if within => Some(Position::Tiles),
            _ => None,
        }
    }
}
