//! 02's "Relay envelopes", as a list of items that is read whole before anything is handed out.

use crate::wire::Message;

const ENVELOPE: u8 = 0x30;
const MESSAGE: u8 = 0x31;

/// "8,192 bytes in all".
const MOST: usize = 8192;

/// "To depth 4 (the outermost is depth 1)".
const DEEPEST: usize = 4;

/// A message's place in some bytes: where it begins, and how long it is.
pub type Place = (usize, usize);

/// The places of every message inside an envelope, "once, left to right"; none where it is refused with 14.
pub fn read(envelope: &[u8]) -> Option<Vec<Place>> {
    if envelope.len() > MOST {
        return None;
    }
    // an envelope is the only item of its bytes
    let (tag, value, rest) = item(envelope)?;
    if tag != ENVELOPE || !rest.is_empty() {
        return None;
    }
    let mut places = Vec::new();
    items(value, 3, 1, &mut places)?;
    Some(places)
}

/// The items of an envelope of some depth, whose first byte is at an offset.
fn items(mut rest: &[u8], mut offset: usize, depth: usize, places: &mut Vec<Place>) -> Option<()> {
    while !rest.is_empty() {
        let (tag, value, behind) = item(rest)?;
        match tag {
            MESSAGE => {
                Message::read(value)?;
                places.push((offset + 3, value.len()));
            }
            ENVELOPE if depth < DEEPEST => items(value, offset + 3, depth + 1, places)?,
            _ => return None,
        }
        offset += rest.len() - behind.len();
        rest = behind;
    }
    Some(())
}

/// The first item: its tag, its value, and what stands behind it.
fn item(bytes: &[u8]) -> Option<(u8, &[u8], &[u8])> {
    let (head, rest) = bytes.split_first_chunk::<3>()?;
    let (value, behind) =
        rest.split_at_checked(usize::from(u16::from_be_bytes([head[1], head[2]])))?;
    Some((head[0], value, behind))
}

/// "The writer makes flat envelopes": of the messages at some places, none where it is refused with 14.
pub fn write(bytes: &[u8], places: &[Place]) -> Option<Vec<u8>> {
    let mut envelope = vec![ENVELOPE, 0, 0];
    for &(offset, size) in places {
        let message = bytes.get(offset..offset.checked_add(size)?)?;
        Message::read(message)?;
        envelope.extend([MESSAGE, 0, size as u8]);
        envelope.extend(message);
        if envelope.len() > MOST {
            return None;
        }
    }
    let size = (envelope.len() - 3) as u16;
    envelope[1..3].copy_from_slice(&size.to_be_bytes());
    Some(envelope)
}
