//! "Outgoing bytes are fields too": what a call asks its host to send, and what it committed.

use crate::message::{Message, Name};

const TO_ALL: u8 = 0x10;
const TO_ONE: u8 = 0x11;
const COMMITTED: u8 = 0x12;

/// One thing for the host to do.
#[derive(Clone, Copy, Debug, PartialEq, Eq, Hash)]
pub enum Effect {
    /// Send this to every other station.
    ToAll(Message),
    /// Send this to one station.
    ToOne { station: u8, message: Message },
    /// This block is committed: each is reported once, by ascending height.
    Committed { height: u32, name: Name },
}

/// What a call wrote, in order: an iterator of [`Effect`]s.
///
/// ```
/// use station::{Effect, Message, Size, Station};
///
/// let mut station = Station::fresh(Size::Small, 3, 2, 2)?;
/// for _ in 1..=13 {
///     assert_eq!(station.tick()?.count(), 0);
/// }
/// let effects: Vec<Effect> = station.tick()?.collect();
/// assert_eq!(effects, [Effect::ToAll(Message::Blame { view: 1, author: 2 })]);
/// # Ok::<(), station::Refusal>(())
/// ```
#[derive(Clone, Debug)]
pub struct Effects<'a> {
    rest: &'a [u8],
}

impl<'a> Effects<'a> {
    /// The effects that a station wrote.
    pub fn new(bytes: &'a [u8]) -> Effects<'a> {
        Effects { rest: bytes }
    }

    /// The bytes of the effects that are still to come.
    pub fn bytes(&self) -> &'a [u8] {
        self.rest
    }
}

impl Iterator for Effects<'_> {
    type Item = Effect;

    /// # Panics
    /// If the bytes are not what a station writes.
    fn next(&mut self) -> Option<Effect> {
        if self.rest.is_empty() {
            return None;
        }
        let (effect, rest) = read(self.rest).expect("effects that a station wrote");
        self.rest = rest;
        Some(effect)
    }
}

/// The first field, and the bytes behind it.
fn read(bytes: &[u8]) -> Option<(Effect, &[u8])> {
    let (&[tag, high, low], rest) = bytes.split_first_chunk()?;
    let (value, rest) = rest.split_at_checked(usize::from(u16::from_be_bytes([high, low])))?;
    let effect = match tag {
        TO_ALL => Effect::ToAll(Message::decode(value).ok()?),
        TO_ONE => {
            let (&station, message) = value.split_first()?;
            Effect::ToOne { station, message: Message::decode(message).ok()? }
        }
        COMMITTED => {
            let (&height, name) = value.split_first_chunk()?;
            Effect::Committed { height: u32::from_be_bytes(height), name: name.try_into().ok()? }
        }
        _ => return None,
    };
    Some((effect, rest))
}

#[cfg(test)]
mod tests {
    use super::*;

    #[test]
    fn effects_are_read_in_order() {
        let message = Message::Status { height: 0, name: [0; 32], certificate_view: 0, mask: 0 };
        let blame = Message::Blame { view: 1, author: 0 };
        let mut bytes = vec![TO_ONE, 0, 59, 2];
        bytes.extend(message.encode());
        bytes.extend([TO_ALL, 0, 15]);
        bytes.extend(blame.encode());
        bytes.extend([COMMITTED, 0, 36, 0, 0, 1, 2]);
        bytes.extend([7; 32]);
        let effects = [
            Effect::ToOne { station: 2, message },
            Effect::ToAll(blame),
            Effect::Committed { height: 0x102, name: [7; 32] },
        ];
        assert_eq!(Effects::new(&bytes).collect::<Vec<_>>(), effects);
        assert_eq!(Effects::new(&bytes).bytes(), bytes);
    }

    #[test]
    fn other_bytes_are_no_effects() {
        for bytes in [&[TO_ALL, 0][..], &[TO_ALL, 0, 1, 4], &[TO_ONE, 0, 0], &[COMMITTED, 0, 4]] {
            assert_eq!(read(bytes), None);
        }
        assert_eq!(read(&[&[COMMITTED, 0, 35][..], &[0; 35]].concat()), None);
        assert_eq!(read(&[0x13, 0, 0]), None);
    }
}
