//! 02, "Power cuts at the dome": a journal in slots of 128 bytes, its writing and its replay. The
//! functions answer "refusal * 2^32 + count", as the calls of the same names do.

use crate::settings::Limits;
use crate::station::Station;
use crate::wire::Message;

pub const SLOT: usize = 128;

/// "tag 20 with a four-byte sequence number".
const SEQUENCE: [u8; 3] = [0x20, 0, 4];
/// "tag 21 with one input".
const INPUT: u8 = 0x21;
/// "and last byte 5A".
const LAST: u8 = 0x5a;

/// Where the sequence, the length of tag 21 and the kind byte stand, and the input begins.
const SEQUENCE_AT: usize = 3;
const LENGTH_AT: usize = 8;
const KIND_AT: usize = 10;
const INPUT_AT: usize = 11;

const TICK: u8 = 1;
const OFFER: u8 = 2;
const MESSAGE: u8 = 3;

/// Refusals.
const LENGTHS: u64 = 1;
const JOURNAL: u64 = 13;

fn answer(refusal: u64, count: usize) -> u64 {
    refusal << 32 | count as u64
}

type Bytes = [u8; SLOT];

/// "a kind byte, 1 tick, 2 offer, 3 message, then nothing, the name or the message".
fn is_input(kind: u8, input: &[u8]) -> bool {
    match kind {
        TICK => input.is_empty(),
        OFFER => input.len() == 32,
        MESSAGE => Message::read(input).is_some(),
        _ => false,
    }
}

/// The record of an input, if it is one.
fn record(sequence: u32, kind: u8, input: &[u8]) -> Option<Bytes> {
    if !is_input(kind, input) {
        return None;
    }
    let mut slot = [0; SLOT];
    slot[..SEQUENCE_AT].copy_from_slice(&SEQUENCE);
    slot[SEQUENCE_AT..SEQUENCE_AT + 4].copy_from_slice(&sequence.to_be_bytes());
    slot[LENGTH_AT - 1] = INPUT;
    slot[LENGTH_AT..KIND_AT].copy_from_slice(&(input.len() as u16 + 1).to_be_bytes());
    slot[KIND_AT] = kind;
    slot[INPUT_AT..INPUT_AT + input.len()].copy_from_slice(input);
    slot[SLOT - 1] = LAST;
    Some(slot)
}

/// What stands in a slot.
#[derive(Clone, Copy, Debug, PartialEq, Eq)]
pub enum Slot<'a> {
    Blank,
    /// "a torn slot (not blank, last byte not 5A)".
    Torn,
    Whole {
        sequence: u32,
        kind: u8,
        input: &'a [u8],
    },
    /// "a slot ending in 5A that doesn't read".
    Bad,
}

impl<'a> Slot<'a> {
    pub fn of(slot: &'a Bytes) -> Slot<'a> {
        match slot[SLOT - 1] {
            LAST => whole(slot).unwrap_or(Slot::Bad),
            0 if *slot == [0; SLOT] => Slot::Blank,
            _ => Slot::Torn,
        }
    }
}

/// A slot reads "exactly when it is such a record to the last byte".
fn whole(slot: &Bytes) -> Option<Slot<'_>> {
    let four = [slot[SEQUENCE_AT], slot[SEQUENCE_AT + 1], slot[SEQUENCE_AT + 2], slot[6]];
    let length = usize::from(u16::from_be_bytes([slot[LENGTH_AT], slot[LENGTH_AT + 1]]));
    let input = slot.get(INPUT_AT..KIND_AT + length)?;
    let (sequence, kind) = (u32::from_be_bytes(four), slot[KIND_AT]);
    let reads = record(sequence, kind, input).as_ref() == Some(slot);
    reads.then_some(Slot::Whole { sequence, kind, input })
}

/// "Fewer than 128 bytes at the end are no slot."
fn slots(journal: &[u8]) -> impl Iterator<Item = Slot<'_>> {
    journal.chunks_exact(SLOT).map(|slot| Slot::of(slot.try_into().expect("a slot's bytes")))
}

fn count(journal: &[u8]) -> usize {
    journal.len() / SLOT
}

/// Whether there are 2^32 slots or more.
fn is_too_long(journal: &[u8]) -> bool {
    u32::try_from(count(journal)).is_err()
}

/// The record of an input into a blank slot.
pub fn put(slot: &mut [u8], sequence: u64, kind: u64, input: &[u8]) -> u64 {
    let Ok(slot) = <&mut Bytes>::try_from(slot) else { return answer(LENGTHS, 0) };
    let (Ok(sequence), Ok(kind)) = (sequence.try_into(), kind.try_into()) else {
        return answer(JOURNAL, 0);
    };
    match record(sequence, kind, input) {
        Some(record) if *slot == [0; SLOT] => {
            *slot = record;
            answer(0, SLOT)
        }
        _ => answer(JOURNAL, 0),
    }
}

/// "Writing goes on in the first blank slot; with none left it is refused with 13 and nothing is
/// written."
pub fn write(journal: &mut [u8], kind: u64, input: &[u8]) -> u64 {
    if is_too_long(journal) {
        return answer(JOURNAL, 0);
    }
    let mut records = 0u32;
    let mut place = None;
    for (at, slot) in slots(journal).enumerate() {
        match slot {
            Slot::Blank => {
                place = Some(at);
                break;
            }
            Slot::Torn => {}
            Slot::Whole { sequence, .. } if sequence == records => records += 1,
            // What is written behind it could never be read back.
            Slot::Whole { .. } | Slot::Bad => break,
        }
    }
    let Some(at) = place else { return answer(JOURNAL, 0) };
    match put(&mut journal[at * SLOT..(at + 1) * SLOT], records.into(), kind, input) {
        done if done == SLOT as u64 => answer(0, at),
        refused => refused,
    }
}

/// What a replay found.
#[derive(Clone, Debug, Default, PartialEq, Eq)]
pub struct Found {
    /// The whole records.
    pub records: usize,
    /// Where reading ended.
    pub end: usize,
    pub torn: Vec<usize>,
    /// Whether it was stopped there.
    pub is_stopped: bool,
}

impl Found {
    /// Its numbers, four bytes each.
    fn report(&self, report: &mut [u8]) {
        let numbers = [self.records, self.end, self.torn.len()];
        let numbers = numbers.iter().chain(&self.torn).map(|number| *number as u32);
        for (four, number) in report.chunks_exact_mut(4).zip(numbers) {
            four.copy_from_slice(&number.to_be_bytes());
        }
    }
}

/// "replay must read on past a torn slot, hand over all later whole ones, and list the torn places."
/// What each call writes is handed to `said`.
pub fn read(journal: &[u8], station: &mut Station, mut said: impl FnMut(&[u8])) -> Found {
    let mut found = Found { end: count(journal), ..Found::default() };
    let mut out = Vec::with_capacity(station.settings().limits().out);
    for (place, slot) in slots(journal).enumerate() {
        out.clear();
        let number = match slot {
            Slot::Blank => {
                found.end = place;
                break;
            }
            Slot::Torn => {
                found.torn.push(place);
                continue;
            }
            // "A missing or repeated number, or a slot ending in 5A that doesn't read".
            Slot::Bad => None,
            Slot::Whole { sequence, .. } if sequence as usize != found.records => None,
            Slot::Whole { kind: TICK, .. } => Some(station.tick(&mut out)),
            Slot::Whole { kind: OFFER, input, .. } => Some(station.offer(input, &mut out)),
            Slot::Whole { input, .. } => Some(station.step(input, &mut out)),
        };
        // "one input answered 0, 6, 7 or 8".
        if !matches!(number, Some(0 | 6 | 7 | 8)) {
            (found.end, found.is_stopped) = (place, true);
            break;
        }
        said(&out);
        found.records += 1;
    }
    found
}

/// A replay into a station, with the out buffer and the report that a host lends. Of the lengths that
/// are refused with 1 the store's is left out, since there is none.
pub fn replay(journal: &[u8], station: &mut Station, out: &mut [u8], report: &mut [u8]) -> u64 {
    let Limits { out: least, .. } = *station.settings().limits();
    if is_too_long(journal) || out.len() < least || report.len() < 12 + 4 * count(journal) {
        return answer(LENGTHS, 0);
    }
    let found = read(journal, station, |said| out[..said.len()].copy_from_slice(said));
    found.report(report);
    match found.is_stopped {
        true => answer(JOURNAL, found.end),
        false => answer(0, found.records),
    }
}
