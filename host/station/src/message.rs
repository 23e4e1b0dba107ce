//! "Messages on the wire": the six kinds, read and written.

use crate::refusal::Refusal;

/// A block's name. All zero is genesis.
pub type Name = [u8; 32];

/// The name of genesis.
pub const GENESIS: Name = [0; 32];

const KIND: u8 = 0x01;
const VIEW: u8 = 0x02;
const HEIGHT: u8 = 0x03;
const NAME: u8 = 0x04;
const PARENT: u8 = 0x05;
const CERTIFICATE_VIEW: u8 = 0x06;
const MASK: u8 = 0x07;
const AUTHOR: u8 = 0x08;

/// A message. In a mask bit i is station i.
///
/// ```
/// use station::Message;
///
/// let blame = Message::Blame { view: 1, author: 2 };
/// let bytes = blame.encode();
/// assert_eq!(bytes, [1, 0, 1, 4, 2, 0, 4, 0, 0, 0, 1, 8, 0, 1, 2]);
/// assert_eq!(Message::decode(&bytes), Ok(blame));
/// assert!(Message::decode(&bytes[1..]).is_err());
/// ```
#[derive(Clone, Copy, Debug, PartialEq, Eq, Hash)]
pub enum Message {
    /// Kind 1, of a view's leader: the block on which the view is built, certified in an earlier view.
    NewView { view: u32, height: u32, name: Name, certificate_view: u32, mask: u16, author: u8 },
    /// Kind 2, of a view's leader: a block above its parent, which the mask certifies in this view.
    Propose { view: u32, height: u32, name: Name, parent: Name, mask: u16, author: u8 },
    /// Kind 3.
    Vote { view: u32, height: u32, name: Name, author: u8 },
    /// Kind 4.
    Blame { view: u32, author: u8 },
    /// Kind 5: the stations that blame a view.
    BlameSet { view: u32, mask: u16 },
    /// Kind 6: a certificate, for the leader of the view that its sender has entered.
    Status { height: u32, name: Name, certificate_view: u32, mask: u16 },
}

impl Message {
    /// The message that these bytes are, or refusal 4. That a message can be read does not say that
    /// a station allows it.
    pub fn decode(bytes: &[u8]) -> Result<Message, Refusal> {
        let mut reader = Reader { rest: bytes };
        match reader.message() {
            Some(message) if reader.rest.is_empty() => Ok(message),
            _ => Err(Refusal::Unreadable),
        }
    }

    /// The message's bytes: its fields "in ascending tag order".
    pub fn encode(&self) -> Vec<u8> {
        let mut writer = Writer { bytes: Vec::with_capacity(97) };
        writer.put(KIND, [self.kind()]);
        match *self {
            Message::NewView { view, height, name, certificate_view, mask, author } => {
                writer.block(view, height, name);
                writer.certificate(certificate_view, mask);
                writer.put(AUTHOR, [author]);
            }
            Message::Propose { view, height, name, parent, mask, author } => {
                writer.block(view, height, name);
                writer.put(PARENT, parent);
                writer.put(MASK, mask.to_be_bytes());
                writer.put(AUTHOR, [author]);
            }
            Message::Vote { view, height, name, author } => {
                writer.block(view, height, name);
                writer.put(AUTHOR, [author]);
            }
            Message::Blame { view, author } => {
                writer.put(VIEW, view.to_be_bytes());
                writer.put(AUTHOR, [author]);
            }
            Message::BlameSet { view, mask } => {
                writer.put(VIEW, view.to_be_bytes());
                writer.put(MASK, mask.to_be_bytes());
            }
            Message::Status { height, name, certificate_view, mask } => {
                writer.put(HEIGHT, height.to_be_bytes());
                writer.put(NAME, name);
                writer.certificate(certificate_view, mask);
            }
        }
        writer.bytes
    }

    /// The kind's number, 1 to 6.
    pub fn kind(&self) -> u8 {
        match self {
            Message::NewView { .. } => 1,
            Message::Propose { .. } => 2,
            Message::Vote { .. } => 3,
            Message::Blame { .. } => 4,
            Message::BlameSet { .. } => 5,
            Message::Status { .. } => 6,
        }
    }

    /// What single stations must have said for this message to be true, each as the message of its
    /// one author: a vote or blame for each bit of a mask, and the author's own word. A statement
    /// comes with mask 0, since its mask is not part of what its leader says.
    ///
    /// A host hands a message to its station only if it has a signature for each of these.
    ///
    /// ```
    /// use station::Message;
    ///
    /// let set = Message::BlameSet { view: 3, mask: 0b101 };
    /// let blame = |author| Message::Blame { view: 3, author };
    /// assert_eq!(set.claims(), [blame(0), blame(2)]);
    /// ```
    pub fn claims(&self) -> Vec<Message> {
        let vote =
            |view, height, name| move |author: u8| Message::Vote { view, height, name, author };
        match *self {
            Message::NewView { height, name, certificate_view, mask, .. } => {
                let mut claims = each(mask, vote(certificate_view, height, name));
                claims.push(self.with_mask(0));
                claims
            }
            Message::Propose { view, height, parent, mask, .. } => {
                let mut claims = each(mask, vote(view, height.wrapping_sub(1), parent));
                claims.push(self.with_mask(0));
                claims
            }
            Message::Vote { .. } | Message::Blame { .. } => vec![*self],
            Message::BlameSet { view, mask } => {
                each(mask, |author| Message::Blame { view, author })
            }
            Message::Status { height, name, certificate_view, mask } => {
                each(mask, vote(certificate_view, height, name))
            }
        }
    }

    /// The view of a message that has a field 02: of all kinds but a status.
    pub fn view(&self) -> Option<u32> {
        match *self {
            Message::NewView { view, .. }
            | Message::Propose { view, .. }
            | Message::Vote { view, .. }
            | Message::Blame { view, .. }
            | Message::BlameSet { view, .. } => Some(view),
            Message::Status { .. } => None,
        }
    }

    /// The station that says this message, of the kinds that have an author.
    pub fn author(&self) -> Option<u8> {
        match *self {
            Message::NewView { author, .. }
            | Message::Propose { author, .. }
            | Message::Vote { author, .. }
            | Message::Blame { author, .. } => Some(author),
            Message::BlameSet { .. } | Message::Status { .. } => None,
        }
    }

    /// The same message with another mask, of the kinds that have one.
    #[must_use]
    pub fn with_mask(mut self, new: u16) -> Message {
        if let Message::NewView { mask, .. }
        | Message::Propose { mask, .. }
        | Message::BlameSet { mask, .. }
        | Message::Status { mask, .. } = &mut self
        {
            *mask = new;
        }
        self
    }
}

/// A message for each station of a mask.
fn each(mask: u16, of: impl Fn(u8) -> Message) -> Vec<Message> {
    (0..16).filter(|station| mask >> station & 1 == 1).map(of).collect()
}

struct Writer {
    bytes: Vec<u8>,
}

impl Writer {
    /// One field: "one-byte tag, two-byte length, then the value".
    fn put<const N: usize>(&mut self, tag: u8, value: [u8; N]) {
        self.bytes.extend([tag, 0, N as u8]);
        self.bytes.extend(value);
    }

    fn block(&mut self, view: u32, height: u32, name: Name) {
        self.put(VIEW, view.to_be_bytes());
        self.put(HEIGHT, height.to_be_bytes());
        self.put(NAME, name);
    }

    fn certificate(&mut self, certificate_view: u32, mask: u16) {
        self.put(CERTIFICATE_VIEW, certificate_view.to_be_bytes());
        self.put(MASK, mask.to_be_bytes());
    }
}

struct Reader<'a> {
    rest: &'a [u8],
}

impl Reader<'_> {
    /// The value of the next field, if that has this tag and length.
    fn field<const N: usize>(&mut self, tag: u8) -> Option<[u8; N]> {
        let (head, rest) = self.rest.split_first_chunk()?;
        let (value, rest) = rest.split_first_chunk()?;
        self.rest = rest;
        (*head == [tag, 0, N as u8]).then_some(*value)
    }

    fn byte(&mut self, tag: u8) -> Option<u8> {
        self.field(tag).map(u8::from_be_bytes)
    }

    fn mask(&mut self) -> Option<u16> {
        self.field(MASK).map(u16::from_be_bytes)
    }

    fn number(&mut self, tag: u8) -> Option<u32> {
        self.field(tag).map(u32::from_be_bytes)
    }

    fn message(&mut self) -> Option<Message> {
        Some(match self.byte(KIND)? {
            1 => Message::NewView {
                view: self.number(VIEW)?,
                height: self.number(HEIGHT)?,
                name: self.field(NAME)?,
                certificate_view: self.number(CERTIFICATE_VIEW)?,
                mask: self.mask()?,
                author: self.byte(AUTHOR)?,
            },
            2 => Message::Propose {
                view: self.number(VIEW)?,
                height: self.number(HEIGHT)?,
                name: self.field(NAME)?,
                parent: self.field(PARENT)?,
                mask: self.mask()?,
                author: self.byte(AUTHOR)?,
            },
            3 => Message::Vote {
                view: self.number(VIEW)?,
                height: self.number(HEIGHT)?,
                name: self.field(NAME)?,
                author: self.byte(AUTHOR)?,
            },
            4 => Message::Blame { view: self.number(VIEW)?, author: self.byte(AUTHOR)? },
            5 => Message::BlameSet { view: self.number(VIEW)?, mask: self.mask()? },
            6 => Message::Status {
                height: self.number(HEIGHT)?,
                name: self.field(NAME)?,
                certificate_view: self.number(CERTIFICATE_VIEW)?,
                mask: self.mask()?,
            },
            _ => return None,
        })
    }
}

#[cfg(test)]
mod tests {
    use super::*;

    const NAMES: [Name; 2] = [[0x11; 32], [0x22; 32]];

    /// One of each kind, with the table's count of bytes.
    fn kinds() -> [(Message, usize); 6] {
        let [name, parent] = NAMES;
        let (view, height, mask, author, certificate_view) = (0x01020304, 7, 0x8001, 9, 3);
        [
            (Message::NewView { view, height, name, certificate_view, mask, author }, 69),
            (Message::Propose { view, height, name, parent, mask, author }, 97),
            (Message::Vote { view, height, name, author }, 57),
            (Message::Blame { view, author }, 15),
            (Message::BlameSet { view, mask }, 16),
            (Message::Status { height, name, certificate_view, mask }, 58),
        ]
    }

    #[test]
    fn what_is_written_reads_back() {
        for (place, (message, length)) in kinds().into_iter().enumerate() {
            let bytes = message.encode();
            assert_eq!((bytes.len(), usize::from(message.kind())), (length, place + 1));
            assert_eq!(Message::decode(&bytes), Ok(message));
        }
    }

    /// A byte short or long, and a changed tag, length or kind, can't be read.
    #[test]
    fn anything_else_is_unreadable() {
        for (message, length) in kinds() {
            let bytes = message.encode();
            assert!(Message::decode(&bytes[..length - 1]).is_err());
            assert!(Message::decode(&[&bytes[..], &[0]].concat()).is_err());
            let mut at = 0;
            while at < length {
                for place in at..at + 3 {
                    let mut damaged = bytes.clone();
                    damaged[place] ^= 0x40;
                    assert!(Message::decode(&damaged).is_err());
                }
                at += 3 + usize::from(bytes[at + 2]);
            }
            assert!(Message::decode(&[&[1, 0, 1, 7], &bytes[4..]].concat()).is_err());
        }
        assert!(Message::decode(&[]).is_err());
    }

    #[test]
    fn certificates_claim_votes() {
        let [name, parent] = NAMES;
        let propose = Message::Propose { view: 2, height: 5, name, parent, mask: 0b110, author: 2 };
        let vote = |author| Message::Vote { view: 2, height: 4, name: parent, author };
        assert_eq!(propose.claims(), [vote(1), vote(2), propose.with_mask(0)]);
        let genesis = Message::Status { height: 0, name: GENESIS, certificate_view: 0, mask: 0 };
        assert_eq!(genesis.claims(), []);
    }
}
