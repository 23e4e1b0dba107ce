//! Relay envelopes: the messages of a shared link, bundled.

use crate::ffi;
use crate::refusal::{Refusal, answer};
use std::slice::ChunksExact;

/// The most bytes of an envelope.
pub const ENVELOPE: usize = 8192;

/// The least length of an envelope's list.
const LIST: usize = 4096;

/// Bytes of a place in a list: its offset and its length.
const PLACE: usize = 8;

/// An envelope that was read: every message inside, "once, left to right", each a part of the envelope's
/// own bytes.
///
/// ```
/// use station::{Envelope, Message, Refusal, envelope};
///
/// let messages = [1, 2].map(|view| Message::Blame { view, author: 0 }.encode());
/// let bytes = envelope(&messages)?;
/// let read = Envelope::read(&bytes)?;
/// assert!(read.messages().eq(&messages));
/// assert_eq!(Envelope::read(&bytes[1..]).unwrap_err(), Refusal::Envelope);
/// # Ok::<(), Refusal>(())
/// ```
#[derive(Clone, Debug)]
pub struct Envelope<'a> {
    bytes: &'a [u8],
    list: Vec<u8>,
}

impl<'a> Envelope<'a> {
    /// Reads an envelope, or refusal 14: nothing of a bad one is handed out.
    pub fn read(bytes: &'a [u8]) -> Result<Envelope<'a>, Refusal> {
        let mut list = vec![0; LIST];
        let count = answer(ffi::envelope_read(bytes, &mut list))?;
        list.truncate(PLACE * count);
        Ok(Envelope { bytes, list })
    }

    /// The messages. They borrow the envelope's bytes, not what was read of them.
    pub fn messages(&self) -> Messages<'a, '_> {
        Messages { bytes: self.bytes, places: self.list.chunks_exact(PLACE) }
    }
}

/// The messages of an envelope, left to right.
#[derive(Clone, Debug)]
pub struct Messages<'a, 'l> {
    bytes: &'a [u8],
    places: ChunksExact<'l, u8>,
}

impl<'a> Iterator for Messages<'a, '_> {
    type Item = &'a [u8];

    fn next(&mut self) -> Option<&'a [u8]> {
        let (offset, size) = self.places.next()?.split_at(PLACE / 2);
        let from = number(offset);
        Some(&self.bytes[from..from + number(size)])
    }

    fn size_hint(&self) -> (usize, Option<usize>) {
        self.places.size_hint()
    }
}

impl ExactSizeIterator for Messages<'_, '_> {}

/// The flat envelope of some messages, or refusal 14 where one isn't readable, or they would pass
/// [`ENVELOPE`] bytes.
pub fn envelope<M: AsRef<[u8]>>(messages: &[M]) -> Result<Vec<u8>, Refusal> {
    let (mut bytes, mut list) = (Vec::new(), Vec::with_capacity(PLACE * messages.len()));
    for message in messages {
        // what doesn't fit four bytes is outside the bytes of any envelope too
        for number in [bytes.len(), message.as_ref().len()] {
            list.extend(u32::try_from(number).map_err(|_| Refusal::Envelope)?.to_be_bytes());
        }
        bytes.extend_from_slice(message.as_ref());
    }
    let mut out = vec![0; ENVELOPE];
    let count = answer(ffi::envelope_write(&bytes, &list, &mut out))?;
    out.truncate(count);
    Ok(out)
}

fn number(bytes: &[u8]) -> usize {
    bytes.iter().fold(0, |number, &byte| number << 8 | usize::from(byte))
}
