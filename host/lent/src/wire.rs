//! Messages on the wire, read where they lie, and what goes out.

use crate::bytes::{Name, four, key, name, put_four, put_two, two};
use crate::check::Statement;
use crate::settings::{Settings, block};

/// How many bytes the value of each tag has, from tag 1 on.
const LENGTHS: [u8; 8] = [1, 4, 4, 32, 32, 4, 2, 1];

/// The bytes of a message of these fields, of a kind, with zeros for all other values; behind a head of its own.
const fn form<const N: usize>(head: &[u8], kind: u8, tags: &[u8]) -> [u8; N] {
    let mut bytes = [0; N];
    let mut at = 0;
    while at < head.len() {
        bytes[at] = head[at];
        at += 1;
    }
    bytes[at + 3] = kind;
    let mut field = 0;
    while field < tags.len() {
        bytes[at] = tags[field];
        bytes[at + 2] = LENGTHS[tags[field] as usize - 1];
        at += 3 + bytes[at + 2] as usize;
        field += 1;
    }
    assert!(at == N);
    bytes
}

const NEW_VIEW: &[u8] = &[1, 2, 3, 4, 6, 7, 8];
const PROPOSE: &[u8] = &[1, 2, 3, 4, 5, 7, 8];
const VOTE: &[u8] = &[1, 2, 3, 4, 8];
const BLAME: &[u8] = &[1, 2, 8];
const BLAME_SET: &[u8] = &[1, 2, 7];
const STATUS: &[u8] = &[1, 3, 4, 6, 7];

/// A message of any kind: its bytes, whose fields are at fixed places.
#[derive(Clone, Copy)]
pub enum Message<'a> {
    NewView(&'a [u8; 69]),
    Propose(&'a [u8; 97]),
    Vote(&'a [u8; 57]),
    Blame(&'a [u8; 15]),
    BlameSet(&'a [u8; 16]),
    Status(&'a [u8; 58]),
}

/// The message, if it has exactly these fields.
#[inline(always)]
fn fields<'a, const N: usize>(message: &'a [u8], tags: &[u8]) -> Option<&'a [u8; N]> {
    let message: &[u8; N] = message.try_into().ok()?;
    let mut at = 0;
    for &tag in tags {
        let length = LENGTHS[usize::from(tag) - 1];
        if message[at..at + 3] != [tag, 0, length] {
            return None;
        }
        at += 3 + usize::from(length);
    }
    Some(message)
}

impl<'a> Message<'a> {
    /// The message that these bytes are; "anything else is unreadable".
    #[inline]
    pub fn read(message: &'a [u8]) -> Option<Message<'a>> {
        match *message.get(3)? {
            1 => fields(message, NEW_VIEW).map(Message::NewView),
            2 => fields(message, PROPOSE).map(Message::Propose),
            3 => fields(message, VOTE).map(Message::Vote),
            4 => fields(message, BLAME).map(Message::Blame),
            5 => fields(message, BLAME_SET).map(Message::BlameSet),
            6 => fields(message, STATUS).map(Message::Status),
            _ => None,
        }
    }

    /// The paragraph "Allowed" of 01.
    #[inline]
    pub fn is_allowed(&self, settings: &Settings) -> bool {
        let led = |view, author| settings.has_view(view) && author == settings.leader(view);
        match *self {
            Message::NewView(m) => {
                let (view, height, certificate_view) = (four(m, 7), four(m, 14), four(m, 56));
                led(view, m[68])
                    && block(height, name(m, 21))
                    && certificate_view < view
                    && settings.certificate(certificate_view, height, two(m, 63))
            }
            Message::Propose(m) => {
                let height = four(m, 14);
                led(four(m, 7), m[96])
                    && height >= 1
                    && block(height, name(m, 21))
                    && block(height - 1, name(m, 56))
                    && settings.quorum(two(m, 91))
            }
            Message::Vote(m) => {
                settings.has_view(four(m, 7))
                    && block(four(m, 14), name(m, 21))
                    && u32::from(m[56]) < settings.n
            }
            Message::Blame(m) => settings.has_view(four(m, 7)) && u32::from(m[14]) < settings.n,
            Message::BlameSet(m) => settings.has_view(four(m, 7)) && settings.quorum(two(m, 14)),
            Message::Status(m) => {
                block(four(m, 7), name(m, 14))
                    && settings.certificate(four(m, 49), four(m, 7), two(m, 56))
            }
        }
    }

    /// The view of a message with a field 02.
    #[inline]
    pub fn view(&self) -> Option<u32> {
        match self {
            Message::NewView(m) => Some(four(&m[..], 7)),
            Message::Propose(m) => Some(four(&m[..], 7)),
            Message::Vote(m) => Some(four(&m[..], 7)),
            Message::Blame(m) => Some(four(&m[..], 7)),
            Message::BlameSet(m) => Some(four(&m[..], 7)),
            Message::Status(_) => None,
        }
    }
}

/// A statement as the store's record, not voted for and without its link.
fn unlinked(kind: u8, view: u32, height: u32, name: &Name, mask: u16, author: u8) -> Statement {
    let mut record = [0; 80];
    record[..8].copy_from_slice(&key(view, height).to_be_bytes());
    record[8..40].copy_from_slice(name);
    record[40] = kind;
    record[41] = author;
    put_two(&mut record, 42, mask);
    record
}

/// A new-view as the store's record.
pub fn new_view(
    view: u32,
    height: u32,
    name: &Name,
    certificate_view: u32,
    mask: u16,
    author: u8,
) -> Statement {
    let mut record = unlinked(1, view, height, name, mask, author);
    put_four(&mut record, 72, certificate_view);
    record
}

/// A propose as the store's record.
pub fn propose(
    view: u32,
    height: u32,
    name: &Name,
    parent: &Name,
    mask: u16,
    author: u8,
) -> Statement {
    let mut record = unlinked(2, view, height, name, mask, author);
    record[44..76].copy_from_slice(parent);
    record
}

/// The out buffer, and how far it is written.
pub struct Out<'a> {
    bytes: &'a mut [u8],
    at: usize,
}

impl<'a> Out<'a> {
    pub fn new(bytes: &'a mut [u8]) -> Out<'a> {
        Out { bytes, at: 0 }
    }

    pub fn written(&self) -> usize {
        self.at
    }

    #[inline(always)]
    fn put<const N: usize>(&mut self, field: &[u8; N]) {
        self.bytes[self.at..self.at + N].copy_from_slice(field);
        self.at += N;
    }

    /// A stored statement to all, with the mask that it came with.
    pub fn statement(&mut self, record: &Statement) {
        if record[40] == 1 {
            let mut field: [u8; 72] = const { form(&[0x10, 0, 69], 1, NEW_VIEW) };
            field[10..14].copy_from_slice(&record[..4]);
            field[17..21].copy_from_slice(&record[4..8]);
            field[24..56].copy_from_slice(&record[8..40]);
            field[59..63].copy_from_slice(&record[72..76]);
            field[66..68].copy_from_slice(&record[42..44]);
            field[71] = record[41];
            self.put(&field);
        } else {
            let mut field: [u8; 100] = const { form(&[0x10, 0, 97], 2, PROPOSE) };
            field[10..14].copy_from_slice(&record[..4]);
            field[17..21].copy_from_slice(&record[4..8]);
            field[24..56].copy_from_slice(&record[8..40]);
            field[59..91].copy_from_slice(&record[44..76]);
            field[94..96].copy_from_slice(&record[42..44]);
            field[99] = record[41];
            self.put(&field);
        }
    }

    /// The own vote for a stored statement, to all.
    pub fn vote(&mut self, record: &Statement, author: u8) {
        let mut field: [u8; 60] = const { form(&[0x10, 0, 57], 3, VOTE) };
        field[10..14].copy_from_slice(&record[..4]);
        field[17..21].copy_from_slice(&record[4..8]);
        field[24..56].copy_from_slice(&record[8..40]);
        field[59] = author;
        self.put(&field);
    }

    pub fn blame(&mut self, view: u32, author: u8) {
        let mut field: [u8; 18] = const { form(&[0x10, 0, 15], 4, BLAME) };
        put_four(&mut field, 10, view);
        field[17] = author;
        self.put(&field);
    }

    pub fn blame_set(&mut self, view: u32, mask: u16) {
        let mut field: [u8; 19] = const { form(&[0x10, 0, 16], 5, BLAME_SET) };
        put_four(&mut field, 10, view);
        put_two(&mut field, 17, mask);
        self.put(&field);
    }

    /// A certificate, as the lock and a tally begin with it, to one station.
    pub fn status(&mut self, station: u8, certificate: &[u8; 42]) {
        let mut field: [u8; 62] = const { form(&[0x11, 0, 59, 0], 6, STATUS) };
        field[3] = station;
        field[11..15].copy_from_slice(&certificate[4..8]);
        field[18..50].copy_from_slice(&certificate[8..40]);
        field[53..57].copy_from_slice(&certificate[..4]);
        field[60..62].copy_from_slice(&certificate[40..]);
        self.put(&field);
    }

    pub fn committed(&mut self, height: u32, name: &Name) {
        let mut field = [0; 39];
        field[..3].copy_from_slice(&[0x12, 0, 36]);
        put_four(&mut field, 3, height);
        field[7..].copy_from_slice(name);
        self.put(&field);
    }
}
