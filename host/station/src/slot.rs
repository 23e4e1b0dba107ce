//! "A journal in slots of 128 bytes": the inputs that it keeps, and its slots, to be looked at. They
//! are written by [`Journal`](crate::Journal) and replayed by [`Station::replay`](crate::Station).

use crate::message::{Message, Name};

/// The bytes of a slot.
pub const SLOT: usize = 128;

const SEQUENCE: [u8; 3] = [0x20, 0, 4];
const INPUT: [u8; 2] = [0x21, 0];
const WHOLE: u8 = 0x5a;

/// What a host hands to a station.
#[derive(Clone, Copy, Debug, PartialEq, Eq, Hash)]
pub enum Input<'a> {
    Tick,
    Offer(&'a Name),
    Message(&'a [u8]),
}

impl<'a> Input<'a> {
    /// Its kind byte: "1 tick, 2 offer, 3 message".
    pub fn kind(&self) -> u8 {
        match self {
            Input::Tick => 1,
            Input::Offer(_) => 2,
            Input::Message(_) => 3,
        }
    }

    /// "then nothing, the name or the message".
    pub fn bytes(&self) -> &'a [u8] {
        match *self {
            Input::Tick => &[],
            Input::Offer(name) => name,
            Input::Message(message) => message,
        }
    }

    fn read(kind: u8, bytes: &'a [u8]) -> Option<Input<'a>> {
        match kind {
            1 if bytes.is_empty() => Some(Input::Tick),
            2 => bytes.try_into().ok().map(Input::Offer),
            3 if Message::decode(bytes).is_ok() => Some(Input::Message(bytes)),
            _ => None,
        }
    }
}

/// What stands in a slot.
///
/// ```
/// use station::{Input, Slot, ffi};
///
/// let mut bytes = [0; 128];
/// assert_eq!(Slot::of(&bytes), Slot::Blank);
/// ffi::journal_put(&mut bytes, 7, Input::Tick.kind().into(), &[]);
/// assert_eq!(Slot::of(&bytes), Slot::Record { sequence: 7, input: Input::Tick });
/// bytes[11..].fill(0); // cut after eleven bytes
/// assert_eq!(Slot::of(&bytes), Slot::Torn);
/// ```
#[derive(Clone, Copy, Debug, PartialEq, Eq, Hash)]
pub enum Slot<'a> {
    /// All zero: a journal ends there, and writing goes on there.
    Blank,
    /// "not blank, last byte not 5A": its input never happened.
    Torn,
    /// A whole record.
    Record { sequence: u32, input: Input<'a> },
    /// "a slot ending in 5A that doesn't read": a replay stops there.
    Unreadable,
}

impl<'a> Slot<'a> {
    pub fn of(bytes: &'a [u8; SLOT]) -> Slot<'a> {
        if *bytes == [0; SLOT] {
            return Slot::Blank;
        }
        if bytes[SLOT - 1] != WHOLE {
            return Slot::Torn;
        }
        Slot::record(&bytes[..SLOT - 1]).unwrap_or(Slot::Unreadable)
    }

    /// The record that all but the last byte are.
    fn record(bytes: &'a [u8]) -> Option<Slot<'a>> {
        let (sequence, rest) = bytes.strip_prefix(&SEQUENCE)?.split_first_chunk()?;
        let (&length, rest) = rest.strip_prefix(&INPUT)?.split_first()?;
        let (input, padding) = rest.split_at_checked(length.into())?;
        let (&kind, input) = input.split_first()?;
        if padding.iter().any(|&byte| byte != 0) {
            return None;
        }
        let sequence = u32::from_be_bytes(*sequence);
        Some(Slot::Record { sequence, input: Input::read(kind, input)? })
    }

    /// The slots of a journal, by place. "Fewer than 128 bytes at the end are no slot."
    pub fn all(journal: &[u8]) -> impl Iterator<Item = Slot<'_>> {
        journal.as_chunks().0.iter().map(Slot::of)
    }

    /// The inputs of a journal's whole records, up to its first blank slot. Handed to a fresh station
    /// one by one they give again all that it ever said.
    pub fn inputs(journal: &[u8]) -> impl Iterator<Item = Input<'_>> {
        Slot::all(journal).take_while(|slot| *slot != Slot::Blank).filter_map(|slot| match slot {
            Slot::Record { input, .. } => Some(input),
            _ => None,
        })
    }
}
