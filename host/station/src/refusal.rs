//! "When the desk says no": the refusals with the numbers of 01 and 02, each with what to do about it.

use std::fmt;

/// Why a call was refused. Nothing has changed but, for `Full`, `Split` and `Clock`, that the
/// station is now stopped.
///
/// ```
/// use station::{Refusal, Size, Station};
///
/// let refused = Station::fresh(Size::Small, 4, 2, 0).unwrap_err();
/// assert_eq!(refused, Refusal::Settings);
/// assert_eq!(refused.number(), 10);
/// println!("{refused}");
/// ```
#[derive(Clone, Copy, Debug, PartialEq, Eq, Hash)]
#[repr(u32)]
pub enum Refusal {
    /// Store of neither length, list of no good length, offered name not 32 bytes, or out buffer too short.
    Length = 1,
    /// Store, or list, not well formed.
    Store = 2,
    /// Already stopped.
    Stopped = 3,
    /// Unreadable message.
    Unreadable = 4,
    /// Message not allowed.
    NotAllowed = 5,
    /// No record free for what this input must add.
    Full = 6,
    /// A due commit differs from the log at a height.
    Split = 7,
    /// Tick at the clock's end.
    Clock = 8,
    /// Offer not to be taken.
    NotTaken = 9,
    /// Bad settings for a fresh store.
    Settings = 10,
    /// Message more than one view ahead of the view held or last quit.
    Ahead = 11,
    /// A vote that would open a tally, by an author who has opened as many as one may.
    UsedUp = 12,
    /// No blank slot left in the journal or the list, or a slot that replay can't read past.
    Journal = 13,
    /// No good relay envelope, or one that can't be made.
    Envelope = 14,
    /// A slip that is none, or a name that is not logged.
    Slip = 15,
}

impl Refusal {
    /// Every refusal, in the order of the numbers.
    pub const ALL: [Refusal; 15] = [
        Refusal::Length,
        Refusal::Store,
        Refusal::Stopped,
        Refusal::Unreadable,
        Refusal::NotAllowed,
        Refusal::Full,
        Refusal::Split,
        Refusal::Clock,
        Refusal::NotTaken,
        Refusal::Settings,
        Refusal::Ahead,
        Refusal::UsedUp,
        Refusal::Journal,
        Refusal::Envelope,
        Refusal::Slip,
    ];

    /// The number that 01 or 02 gives it.
    pub fn number(self) -> u32 {
        self as u32
    }

    /// The refusal of a number, if there is one.
    pub fn from_number(number: u32) -> Option<Refusal> {
        Self::ALL.into_iter().find(|refusal| refusal.number() == number)
    }

    /// Whether the call stopped the station for good, or found it stopped.
    pub fn is_stop(self) -> bool {
        matches!(self, Refusal::Stopped | Refusal::Full | Refusal::Split | Refusal::Clock)
    }

    /// What has happened.
    fn reason(self) -> &'static str {
        match self {
            Refusal::Length => "a buffer or a name is not of its length",
            Refusal::Store => "the store or list is not well formed",
            Refusal::Stopped => "the station is stopped for good",
            Refusal::Unreadable => "the message can't be read",
            Refusal::NotAllowed => "the message is not allowed in this group",
            Refusal::Full => "no record is free, and the station is now stopped",
            Refusal::Split => "a due commit differs from the log, and the station is now stopped",
            Refusal::Clock => "the clock is at its end, and the station is now stopped",
            Refusal::NotTaken => "the offer is not to be taken now",
            Refusal::Settings => "the settings are bad",
            Refusal::Ahead => "the message is more than one view ahead",
            Refusal::UsedUp => "the vote's author has opened as many tallies as one may",
            Refusal::Journal => "the journal or list has no blank slot, or one that can't be read",
            Refusal::Envelope => "it is no good envelope, or none can be made of these messages",
            Refusal::Slip => "the bytes are no slip, or the block is not logged",
        }
    }

    /// What a host does about it.
    pub fn advice(self) -> &'static str {
        match self {
            Refusal::Length => {
                "lend a store and an out buffer of the lengths of one `Size`, a list with room for 1 to 2^20 inputs, and a name of 32 bytes"
            }
            Refusal::Store => "replay the journal: the store was damaged, or is of something else",
            Refusal::Stopped => "read its log; it counts among the f faulty and takes no input",
            Refusal::Unreadable => "drop it; its sender is faulty, or the link damages bytes",
            Refusal::NotAllowed => "drop it; its sender is faulty, or has other settings",
            Refusal::Full => "keep its log, and begin a new group when f stations have stopped so",
            Refusal::Split => {
                "trust no log further: more than f stations are faulty, or a host broke a rule"
            }
            Refusal::Clock => "keep its log, and begin a new group",
            Refusal::NotTaken => {
                "offer it again after the next input while this station leads, else to the leader"
            }
            Refusal::Settings => "take an odd n of 3 to 15, D of 1 to 10,000, and own below n",
            Refusal::Ahead => {
                "keep it and hand it over again after the next view begins, or drop it; no sound station's message comes so early"
            }
            Refusal::UsedUp => {
                "drop it; its author is faulty, or its votes overtook their statements: keep each sender's order"
            }
            Refusal::Journal => {
                "make a full one longer; with a damaged one the station counts among the f faulty"
            }
            Refusal::Envelope => {
                "drop a bad one: its relay is faulty, or the link damages bytes; make one of fewer messages"
            }
            Refusal::Slip => "trust no chain on it; ask a station that has the block in its log",
        }
    }
}

impl fmt::Display for Refusal {
    fn fmt(&self, f: &mut fmt::Formatter<'_>) -> fmt::Result {
        write!(f, "refusal {}: {}; {}", self.number(), self.reason(), self.advice())
    }
}

impl std::error::Error for Refusal {}

/// A call's result taken apart: its count, or the refusal.
///
/// # Panics
/// If no refusal has the number, as no call answers it.
pub fn answer(result: u64) -> Result<usize, Refusal> {
    let number = (result >> 32) as u32;
    if number == 0 {
        return Ok(result as usize);
    }
    Err(Refusal::from_number(number).expect("the number of a refusal"))
}

#[cfg(test)]
mod tests {
    use super::*;

    #[test]
    fn numbers_are_those_of_01_and_02() {
        for (number, refusal) in (1..=15).zip(Refusal::ALL) {
            assert_eq!(refusal.number(), number);
            assert_eq!(Refusal::from_number(number), Some(refusal));
            assert!(refusal.to_string().starts_with(&format!("refusal {number}: ")));
        }
        for number in [0, 16] {
            assert_eq!(Refusal::from_number(number), None);
        }
    }

    #[test]
    fn results_come_apart() {
        assert_eq!(answer(132), Ok(132));
        assert_eq!(answer(7 << 32), Err(Refusal::Split));
        assert_eq!(answer(13 << 32 | 5), Err(Refusal::Journal));
    }
}
