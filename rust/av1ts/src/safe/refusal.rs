//! What was refused and where, as an error.

use std::error::Error;
use std::fmt;

/// The refusals: a variant, its number, and its words.
macro_rules! refusals {
    ($($name:ident = $number:literal, $words:literal;)*) => {
        /// Why something was refused. `docs/REFUSALS.md` has each with an example and what to do
        /// about it.
        #[derive(Clone, Copy, Debug, PartialEq, Eq, Hash)]
        #[non_exhaustive]
        pub enum Refusal {
            $(#[doc = $words] $name,)*
            /// A number that this binding has no name for.
            Unknown(u64),
        }

        impl Refusal {
            /// Its number.
            pub fn number(self) -> u64 {
                match self {
                    $(Refusal::$name => $number,)*
                    Refusal::Unknown(number) => number,
                }
            }

            pub(super) fn of_number(number: u64) -> Refusal {
                match number {
                    $($number => Refusal::$name,)*
                    _ => Refusal::Unknown(number),
                }
            }

            fn words(self) -> &'static str {
                match self {
                    $(Refusal::$name => $words,)*
                    Refusal::Unknown(_) => "a refusal that has no words here",
                }
            }
        }
    };
}

refusals! {
    ObuCount = 1, "no OBU to write, or more than 64";
    Length = 2, "too long, or lengths that don't add up to the bytes";
    EmptyObu = 3, "an OBU has no bytes";
    ObuHeader = 4, "an OBU header has its forbidden bit set, or no extension byte";
    ObuSize = 5, "an OBU's size is wrong, or a temporal delimiter has content";
    TileList = 6, "an OBU is a tile list";
    Order = 7, "the order of the OBUs is broken";
    NoRoom = 8, "an output is too short";
    NoStartCode = 9, "no start code stands at the head";
    IllegalPayload = 10, "a payload has bytes that no payload may have";
    SegmentLength = 20, "no bytes, not whole packets of 188, or over 65,535 of them";
    SyncByte = 21, "a packet does not begin with 47";
    TransportError = 22, "a packet is marked as damaged";
    PacketHeader = 23, "a packet's header or adaptation field is wrong";
    ContinuityCounter = 24, "a packet is missing, or comes twice";
    Pat = 25, "the PAT is wrong, or differs from the first one";
    Pmt = 26, "the PMT is wrong, or differs from the first one";
    EntryCount = 27, "the PMT has more than 12 streams";
    Av1Entry = 28, "the PMT has not exactly one AV1 stream, or not as it should be";
    PesHeader = 29, "a PES header is wrong, or is missing";
    NoTimes = 30, "a PES has no times";
    NoPcr = 31, "AV1 comes before any PCR";
    PesLength = 32, "a PES is longer or shorter than it says";
    NoTables = 33, "there is no PAT or no PMT";
    UnitCount = 34, "there are more than 1,024 units";
    Descriptor = 40, "the bytes are no AV1 video descriptor";
    DescriptorField = 41, "a field of a video descriptor is past its width";
    ObuContent = 42, "a header has no content, or is that of a reduced still picture";
    CutShort = 43, "a sequence header is cut short";
    Edition = 44, "the edition is none that is known";
    Sheet = 45, "the bytes are no sheet";
    ArrivalTime = 46, "an arrival's time goes back, or lies over a second behind the last";
    ReplayBounds = 47, "a rate, a byte count, a number of arrivals or a state is out of bounds";
    MasteringForm = 48, "the content is not that of mastering figures";
    MasteringBounds = 49, "a mastering figure is past its bound";
    QueueFull = 50, "eight units are queued";
    QueuedUnit = 51, "the unit is refused by reading, or a time is above 33 bits";
    Channel = 52, "a descriptor, PID, program number, counter or PCR is not allowed";
    PacketsToSend = 53, "there are more than 65,535 packets to send";
}

impl fmt::Display for Refusal {
    fn fmt(&self, f: &mut fmt::Formatter<'_>) -> fmt::Result {
        f.write_str(self.words())
    }
}

/// A refusal and its place: the index of an OBU, a packet or an arrival, a byte's place, or 0.
///
/// ```
/// let refused = av1ts::unescape(&[0x41, 0, 0, 0]).unwrap_err();
/// assert_eq!(refused.why, av1ts::Refusal::IllegalPayload);
/// assert_eq!(refused.place, 1);
/// assert_eq!(refused.to_string(), "refused 10 at 1: a payload has bytes that no payload may have");
/// ```
#[derive(Clone, Copy, Debug, PartialEq, Eq, Hash)]
pub struct Refused {
    pub why: Refusal,
    pub place: u64,
}

impl Refused {
    /// An answer's number and place, where its number is not 0.
    pub fn check(number: u64, place: u64) -> Result<(), Refused> {
        match number {
            0 => Ok(()),
            _ => Err(Refused {
                why: Refusal::of_number(number),
                place,
            }),
        }
    }
}

impl fmt::Display for Refused {
    fn fmt(&self, f: &mut fmt::Formatter<'_>) -> fmt::Result {
        write!(
            f,
            "refused {} at {}: {}",
            self.why.number(),
            self.place,
            self.why
        )
    }
}

impl Error for Refused {}
