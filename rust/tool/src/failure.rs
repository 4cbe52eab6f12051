//! How a command ends.

/// Why the tool stops with status 2: one line for standard error.
#[derive(Debug)]
pub struct Failure(pub String);

/// What a command found: status 0 or 1.
#[derive(Clone, Copy, Debug, PartialEq, Eq)]
pub enum Verdict {
    Accepted,
    Refused,
}

impl Verdict {
    /// Of a number of the library, of which 0 is no refusal.
    pub fn of(number: u64) -> Verdict {
        Verdict::accepted_if(number == 0)
    }

    pub fn accepted_if(fine: bool) -> Verdict {
        if fine {
            Verdict::Accepted
        } else {
            Verdict::Refused
        }
    }

    /// Of two inputs: refused where one is.
    pub fn and(self, other: Verdict) -> Verdict {
        if self == Verdict::Accepted {
            other
        } else {
            self
        }
    }
}

/// What a command hands back.
pub type Done = Result<Verdict, Failure>;

/// A failure in words.
pub fn fail<T>(words: impl Into<String>) -> Result<T, Failure> {
    Err(Failure(words.into()))
}
