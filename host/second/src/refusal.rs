//! "When the desk says no": the refusals with the numbers of 01 and 02, and the causes of a stop.

/// Why a call was refused. A station has no store or buffers of its host's, so that of 1 the
/// offered name is left, and 2 can't be.
#[derive(Clone, Copy, Debug, PartialEq, Eq)]
#[repr(u32)]
pub enum Refusal {
    Length = 1,
    Stopped = 3,
    Unreadable = 4,
    NotAllowed = 5,
    Full = 6,
    Split = 7,
    Clock = 8,
    NotTaken = 9,
    Settings = 10,
    Ahead = 11,
    UsedUp = 12,
}

/// What stopped a station for good.
#[derive(Clone, Copy, Debug, PartialEq, Eq)]
pub enum Cause {
    Full,
    Split,
    Clock,
}

impl Cause {
    /// The refusal that the call which stops the station answers.
    pub fn refusal(self) -> Refusal {
        match self {
            Cause::Full => Refusal::Full,
            Cause::Split => Refusal::Split,
            Cause::Clock => Refusal::Clock,
        }
    }
}

/// What a call gives inside the program; outside it is a number.
pub type Outcome = Result<(), Refusal>;

/// 01's number of an outcome: "Done is 0".
pub fn number(outcome: Outcome) -> u32 {
    match outcome {
        Ok(()) => 0,
        Err(refusal) => refusal as u32,
    }
}
