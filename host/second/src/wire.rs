//! "Messages on the wire": reading, what is allowed, and writing, of messages and outgoing fields.

use crate::settings::Settings;
use crate::words::{Block, Made, Name, Statement, Tally};

const KIND: u8 = 0x01;
const VIEW: u8 = 0x02;
const HEIGHT: u8 = 0x03;
const NAME: u8 = 0x04;
const PARENT: u8 = 0x05;
const CERTIFICATE_VIEW: u8 = 0x06;
const MASK: u8 = 0x07;
const AUTHOR: u8 = 0x08;
const TO_ALL: u8 = 0x10;
const TO_ONE: u8 = 0x11;
const COMMITTED: u8 = 0x12;
const SHOWN: u8 = 0x13;

const NEW_VIEW: u8 = 1;
const PROPOSE: u8 = 2;
const VOTE: u8 = 3;
const BLAME: u8 = 4;
const BLAME_SET: u8 = 5;
const STATUS: u8 = 6;

/// Bytes of a field's tag and length.
const HEAD: usize = 3;

/// A message of any kind.
#[derive(Clone, Copy, Debug, PartialEq, Eq)]
pub enum Message {
    Statement { statement: Statement, author: u8 },
    Vote { block: Block, author: u8 },
    Blame { view: u32, author: u8 },
    BlameSet { view: u32, mask: u16 },
    Status { certificate: Tally },
}

/// "The reader keeps the message and its place in it."
struct Reader<'a> {
    message: &'a [u8],
    place: usize,
}

impl Reader<'_> {
    /// The value of the next field, if that has this tag and length.
    #[inline]
    fn field<const N: usize>(&mut self, tag: u8) -> Option<[u8; N]> {
        let field = self.message.get(self.place..self.place + HEAD + N)?;
        let (head, value) = field.split_at(HEAD);
        if head != [tag, 0, N as u8] {
            return None;
        }
        self.place += field.len();
        value.try_into().ok()
    }

    #[inline]
    fn byte(&mut self, tag: u8) -> Option<u8> {
        self.field(tag).map(|[byte]| byte)
    }

    #[inline]
    fn number(&mut self, tag: u8) -> Option<u32> {
        self.field(tag).map(u32::from_be_bytes)
    }

    #[inline]
    fn mask(&mut self) -> Option<u16> {
        self.field(MASK).map(u16::from_be_bytes)
    }

    #[inline]
    fn name(&mut self, tag: u8) -> Option<Name> {
        self.field(tag).map(Name::from_bytes)
    }

    /// View, height and block name, which stand together.
    #[inline]
    fn block(&mut self) -> Option<Block> {
        Some(Block {
            view: self.number(VIEW)?,
            height: self.number(HEIGHT)?,
            name: self.name(NAME)?,
        })
    }

    fn new_view(&mut self) -> Option<Message> {
        let block = self.block()?;
        let made = Made::NewView { certificate_view: self.number(CERTIFICATE_VIEW)? };
        let statement = Statement { block, made, mask: self.mask()? };
        Some(Message::Statement { statement, author: self.byte(AUTHOR)? })
    }

    fn propose(&mut self) -> Option<Message> {
        let block = self.block()?;
        let made = Made::Propose { parent: self.name(PARENT)? };
        let statement = Statement { block, made, mask: self.mask()? };
        Some(Message::Statement { statement, author: self.byte(AUTHOR)? })
    }

    fn vote(&mut self) -> Option<Message> {
        Some(Message::Vote { block: self.block()?, author: self.byte(AUTHOR)? })
    }

    fn blame(&mut self) -> Option<Message> {
        Some(Message::Blame { view: self.number(VIEW)?, author: self.byte(AUTHOR)? })
    }

    fn blame_set(&mut self) -> Option<Message> {
        Some(Message::BlameSet { view: self.number(VIEW)?, mask: self.mask()? })
    }

    fn status(&mut self) -> Option<Message> {
        let height = self.number(HEIGHT)?;
        let name = self.name(NAME)?;
        let view = self.number(CERTIFICATE_VIEW)?;
        let block = Block { view, height, name };
        Some(Message::Status { certificate: Tally { block, mask: self.mask()? } })
    }
}

impl Message {
    /// The message that these bytes are. "Anything else is unreadable": other tags, lengths or
    /// kinds, bytes left over.
    pub fn read(message: &[u8]) -> Option<Message> {
        let mut reader = Reader { message, place: 0 };
        let read = match reader.byte(KIND)? {
            NEW_VIEW => reader.new_view()?,
            PROPOSE => reader.propose()?,
            VOTE => reader.vote()?,
            BLAME => reader.blame()?,
            BLAME_SET => reader.blame_set()?,
            STATUS => reader.status()?,
            _ => return None,
        };
        (reader.place == message.len()).then_some(read)
    }

    /// The paragraph "Allowed" of 01.
    pub fn is_allowed(&self, settings: &Settings) -> bool {
        match self {
            Message::Statement { statement, author } => {
                let view = statement.block.view;
                settings.has_view(view)
                    && *author == settings.leader(view)
                    && statement_allowed(statement, settings)
            }
            Message::Vote { block, author } => {
                settings.has_view(block.view)
                    && settings.has_station(*author)
                    && name_allowed(block)
            }
            Message::Blame { view, author } => {
                settings.has_view(*view) && settings.has_station(*author)
            }
            Message::BlameSet { view, mask } => {
                settings.has_view(*view) && quorum_allowed(*mask, settings)
            }
            Message::Status { certificate } => certificate_allowed(certificate, settings),
        }
    }

    /// The view of a "view-bearing message (one with a field 02)".
    pub fn view(&self) -> Option<u32> {
        match self {
            Message::Statement { statement, .. } => Some(statement.block.view),
            Message::Vote { block, .. } => Some(block.view),
            Message::Blame { view, .. } | Message::BlameSet { view, .. } => Some(*view),
            Message::Status { .. } => None,
        }
    }

    /// The table's "bytes".
    fn length(&self) -> usize {
        match self {
            Message::Statement { statement, .. } if statement.is_new_view() => 69,
            Message::Statement { .. } => 97,
            Message::Vote { .. } => 57,
            Message::Blame { .. } => 15,
            Message::BlameSet { .. } => 16,
            Message::Status { .. } => 58,
        }
    }

    /// Appends the message's fields, "in ascending tag order".
    pub fn write(&self, out: &mut Vec<u8>) {
        match *self {
            Message::Statement { statement, author } => write_statement(&statement, author, out),
            Message::Vote { block, author } => {
                put(out, KIND, [VOTE]);
                put_block(out, &block);
                put(out, AUTHOR, [author]);
            }
            Message::Blame { view, author } => {
                put(out, KIND, [BLAME]);
                put(out, VIEW, view.to_be_bytes());
                put(out, AUTHOR, [author]);
            }
            Message::BlameSet { view, mask } => {
                put(out, KIND, [BLAME_SET]);
                put(out, VIEW, view.to_be_bytes());
                put(out, MASK, mask.to_be_bytes());
            }
            Message::Status { certificate: Tally { block, mask } } => {
                put(out, KIND, [STATUS]);
                put(out, HEIGHT, block.height.to_be_bytes());
                put(out, NAME, block.name.to_bytes());
                put(out, CERTIFICATE_VIEW, block.view.to_be_bytes());
                put(out, MASK, mask.to_be_bytes());
            }
        }
    }

    /// "tag 10 to all".
    pub fn to_all(&self, out: &mut Vec<u8>) {
        let length = self.length();
        out.reserve(HEAD + length);
        out.extend_from_slice(&[TO_ALL, 0, length as u8]);
        self.write(out);
    }

    /// "tag 11 to one (station byte, message)".
    pub fn to_one(&self, station: u8, out: &mut Vec<u8>) {
        let length = self.length() + 1;
        out.reserve(HEAD + length);
        out.extend_from_slice(&[TO_ONE, 0, length as u8, station]);
        self.write(out);
    }
}

/// "tag 12 committed (height 4, name 32)".
pub fn committed(height: u32, name: Name, out: &mut Vec<u8>) {
    let mut value = [0; 4 + Name::BYTES];
    value[..4].copy_from_slice(&height.to_be_bytes());
    value[4..].copy_from_slice(&name.to_bytes());
    put(out, COMMITTED, value);
}

/// Tag 13: a propose on the wall display (height 4, name 32, ticks left 8, in two's complement).
pub fn shown(height: u32, name: Name, ticks_left: i64, out: &mut Vec<u8>) {
    let mut value = [0; 4 + Name::BYTES + 8];
    value[..4].copy_from_slice(&height.to_be_bytes());
    value[4..4 + Name::BYTES].copy_from_slice(&name.to_bytes());
    value[4 + Name::BYTES..].copy_from_slice(&ticks_left.to_be_bytes());
    put(out, SHOWN, value);
}

/// One field: "one-byte tag, two-byte length, then the value".
#[inline]
fn put<const N: usize>(out: &mut Vec<u8>, tag: u8, value: [u8; N]) {
    out.extend_from_slice(&[tag, 0, N as u8]);
    out.extend_from_slice(&value);
}

fn put_block(out: &mut Vec<u8>, block: &Block) {
    put(out, VIEW, block.view.to_be_bytes());
    put(out, HEIGHT, block.height.to_be_bytes());
    put(out, NAME, block.name.to_bytes());
}

fn write_statement(statement: &Statement, author: u8, out: &mut Vec<u8>) {
    match statement.made {
        Made::NewView { certificate_view } => {
            put(out, KIND, [NEW_VIEW]);
            put_block(out, &statement.block);
            put(out, CERTIFICATE_VIEW, certificate_view.to_be_bytes());
        }
        Made::Propose { parent } => {
            put(out, KIND, [PROPOSE]);
            put_block(out, &statement.block);
            put(out, PARENT, parent.to_bytes());
        }
    }
    put(out, MASK, statement.mask.to_be_bytes());
    put(out, AUTHOR, [author]);
}

/// "height 0 exactly when the name is all zero (genesis)", and a height within the limits.
fn name_allowed(block: &Block) -> bool {
    block.height <= Settings::HEIGHTS && (block.height == 0) == block.name.is_zero()
}

/// "no mask bit at n or above", "masks hold at least f+1 bits".
fn quorum_allowed(mask: u16, settings: &Settings) -> bool {
    settings.has_stations(mask) && settings.full(mask)
}

/// "Certificate view 0 goes with height 0 and mask 0 only"; a later one with a quorum.
fn certificate_allowed(certificate: &Tally, settings: &Settings) -> bool {
    let block = &certificate.block;
    if block.view == 0 {
        return *certificate == Tally::GENESIS;
    }
    block.view <= settings.limits().views
        && name_allowed(block)
        && quorum_allowed(certificate.mask, settings)
}

/// What a statement of an allowed view and author must have besides.
fn statement_allowed(statement: &Statement, settings: &Settings) -> bool {
    let block = &statement.block;
    match statement.made {
        // "A new-view has certificate view below its view."
        Made::NewView { certificate_view } => {
            certificate_view < block.view && certificate_allowed(&statement.certificate(), settings)
        }
        // "A propose has height at least 1"; its "parent is all zero exactly at height 1".
        Made::Propose { parent } => {
            block.height >= 1
                && name_allowed(block)
                && (block.height == 1) == parent.is_zero()
                && quorum_allowed(statement.mask, settings)
        }
    }
}
