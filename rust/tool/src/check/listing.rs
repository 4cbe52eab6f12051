//! A carried unit, OBU by OBU.

use crate::library::{self, Refused, UnitFigures};
use crate::reading::counted;
use crate::reading::finding::Finding;
use crate::reading::obu::{self, Header, type_name};
use crate::reading::order::Position;

/// An OBU that the walk hands out.
pub struct ObuLine {
    pub header: Header,
    pub obu: Vec<u8>,
    pub removed: usize,
    /// Where its payload begins in the unit.
    pub at: usize,
    /// How many bytes its payload has.
    pub payload: usize,
    /// The position behind it; none where it breaks the order, or one before it did.
    pub position: Option<Position>,
}

/// The library's verdict on a unit, and the OBUs that its walk hands out.
pub struct Listing {
    pub verdict: Result<UnitFigures, Refused>,
    pub obus: Vec<ObuLine>,
    /// Where the walk stopped.
    pub stopped: usize,
}

/// Walks over a unit.
pub fn list(carried: &[u8]) -> Listing {
    let mut obus: Vec<ObuLine> = Vec::new();
    let mut at = 0;
    let mut position = Some(Position::Start);
    while obus.len() <= library::MOST_OBUS {
        let step = library::step(carried, at);
        if step.number != 0 || step.end == 1 {
            break;
        }
        let (start, length) = (step.start as usize, step.length as usize);
        let (obu, removed) = match library::unescape(&carried[start..start + length]) {
            Ok(unescaped) => unescaped,
            Err(_) => break,
        };
        let header = obu::read(&obu);
        position = position.and_then(|now| now.behind(header.kind, header.shows_again(&obu)));
        obus.push(ObuLine {
            header,
            obu,
            removed,
            at: start,
            payload: length,
            position,
        });
        at = step.next_at as usize;
    }
    Listing {
        verdict: library::check_unit(carried),
        obus,
        stopped: at,
    }
}

impl ObuLine {
    /// Its type in words.
    pub fn name(&self) -> &'static str {
        if self.header.shows_again(&self.obu) {
            "frame header, shows a frame again"
        } else {
            type_name(self.header.kind)
        }
    }

    fn finding(&self, index: usize) -> Finding {
        let value = format!(
            "type {} ({}), {}: {}",
            self.header.kind,
            self.name(),
            counted(self.obu.len(), "byte"),
            crate::hex::front(&self.obu, 8)
        );
        Finding::new(format!("OBU {index}"), value)
    }

    /// Why reading refuses it, in words.
    fn wrong(&self, number: u64) -> String {
        let header = &self.header;
        let remains = self.obu.len().saturating_sub(header.content_at);
        match number {
            4 if header.forbidden => "the forbidden bit is set".to_string(),
            4 => "its extension byte is missing".to_string(),
            5 => match header.size {
                None if header.width == 0 => "its size is missing".to_string(),
                None => "its size is no leb128".to_string(),
                Some(size) if size != remains as u64 => {
                    format!("its size says {size}, {} remain", counted(remains, "byte"))
                }
                _ => format!("a delimiter with {} of content", counted(remains, "byte")),
            },
            6 => "a tile list".to_string(),
            42 if remains == 0 => "no content".to_string(),
            42 => "reduced_still_picture_header is set".to_string(),
            number => format!("refused {number}"),
        }
    }
}

impl Listing {
    /// The OBUs up to the one that is refused, and why it is.
    pub fn findings(&self, carried: &[u8]) -> Vec<Finding> {
        let refused = match self.verdict {
            Err(refused) => refused,
            Ok(_) => return self.lines(self.obus.len()),
        };
        let at = refused.place as usize;
        match refused.number {
            1 | 2 | 9 => self.whole(carried, refused.number),
            3 | 10 => {
                let mut found = self.lines(self.obus.len());
                found.push(self.illegal(carried, refused));
                found
            }
            7 => self.order(at),
            number => {
                let mut found = self.lines(at);
                if let Some(obu) = self.obus.get(at) {
                    found.push(obu.finding(at).wrong(obu.wrong(number)));
                }
                found
            }
        }
    }

    fn lines(&self, count: usize) -> Vec<Finding> {
        let obus = self.obus.iter().take(count).enumerate();
        obus.map(|(index, obu)| obu.finding(index)).collect()
    }

    /// What is wrong with the unit as a whole.
    fn whole(&self, carried: &[u8], number: u64) -> Vec<Finding> {
        let codes = carried
            .windows(3)
            .filter(|three| *three == [0, 0, 1])
            .count();
        let sum: usize = self.obus.iter().map(|obu| obu.obu.len()).sum();
        vec![
            Finding::new("carried bytes", carried.len()),
            Finding::new("OBUs' bytes", sum)
                .wrong_if(number == 2 && sum > library::MOST_UNIT, "over 1,048,576"),
            Finding::new("start codes", codes).wrong_if(number == 1, "1 to 64"),
            Finding::new("first bytes", crate::hex::front(carried, 16))
                .wrong_if(number == 9, "00 00 01 is due"),
        ]
    }

    /// The payload at which the walk stopped.
    fn illegal(&self, carried: &[u8], refused: Refused) -> Finding {
        let from = (self.stopped + 3).min(carried.len());
        let rest = &carried[from..];
        let end = rest.windows(3).position(|three| three == [0, 0, 1]);
        let payload = &rest[..end.unwrap_or(rest.len())];
        let what = format!("OBU {}", refused.place);
        match library::unescape(payload) {
            Err(Refused { number: 10, place }) => {
                let at = place as usize;
                let bytes = &payload[at..(at + 4).min(payload.len())];
                let value = format!("{} at byte {at} of its payload", crate::hex::show(bytes));
                Finding::new(what, value).wrong("no such sequence in a payload")
            }
            _ => Finding::new(what, "no bytes").wrong("at least one is due"),
        }
    }

    /// The OBUs with the position that each leads to.
    fn order(&self, at: usize) -> Vec<Finding> {
        let mut found = Vec::new();
        let mut before = Position::Start;
        for (index, obu) in self.obus.iter().enumerate().take(at + 1) {
            let line = obu.finding(index);
            match obu.position {
                Some(position) => {
                    before = position;
                    found.push(line);
                }
                None => found.push(line.wrong(format!("may not follow here: {}", before.awaits()))),
            }
        }
        if self.obus.len() == at {
            found.push(
                Finding::new("end", "of the unit").wrong(format!("too soon: {}", before.awaits())),
            );
        }
        found
    }
}
