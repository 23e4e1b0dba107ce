//! Random journals, whole and damaged, to the journal's calls of both programs.

use crate::sources::{Scripted, Source};
use programs::{Journals, Program, Second, shown};
use second::journal::{SLOT, Slot};
use second::random::Random;
use second::replay::Input;
use station::{Refusal, Size};

/// What was met on the way.
#[derive(Clone, Debug, Default)]
pub struct Met {
    pub journals: u64,
    /// How often each call was done, and refused with 1 and with 13.
    pub put: [u64; 3],
    pub write: [u64; 3],
    pub replay: [u64; 3],
    /// Why replays stopped: a slot that doesn't read, another number, another station's input.
    pub stops: [u64; 3],
    /// Records that were handed over, and torn slots that were passed.
    pub records: u64,
    pub torn: u64,
}

const JOURNAL: u64 = 13;

fn count(met: &mut [u64; 3], answer: u64) {
    match answer >> 32 {
        0 => met[0] += 1,
        1 => met[1] += 1,
        _ => met[2] += 1,
    }
}

/// A journal as its kind and bytes are lent: what an input is to it.
pub fn of(input: &Input) -> (u64, &[u8]) {
    match input {
        Input::Fresh { .. } => unreachable!("a fresh start is no input"),
        Input::Tick => (1, &[]),
        Input::Offer(name) => (2, name),
        Input::Step(message) => (3, message),
        Input::Display | Input::Certified { .. } => unreachable!("a question is no input"),
    }
}

/// One put to both programs.
fn put<P: Journals>(
    slot: &mut [u8],
    sequence: u64,
    kind: u64,
    input: &[u8],
    met: &mut Met,
) -> Result<u64, String> {
    let mut wanted = slot.to_vec();
    let answers =
        (P::put(slot, sequence, kind, input), { Second::put(&mut wanted, sequence, kind, input) });
    count(&mut met.put, answers.1);
    alike("journal_put", answers, slot == wanted)
}

/// One write to both programs.
fn write<P: Journals>(
    journal: &mut [u8],
    kind: u64,
    input: &[u8],
    met: &mut Met,
) -> Result<u64, String> {
    let mut wanted = journal.to_vec();
    let answers = (P::write(journal, kind, input), Second::write(&mut wanted, kind, input));
    count(&mut met.write, answers.1);
    alike("journal_write", answers, journal == wanted)
}

fn alike(call: &str, (got, wanted): (u64, u64), is_alike: bool) -> Result<u64, String> {
    match (got == wanted, is_alike) {
        (true, true) => Ok(wanted),
        (true, false) => Err(format!("{call} leaves other bytes")),
        (false, _) => Err(format!(
            "{call} answers {} with {}, second {} with {}",
            got >> 32,
            got as u32,
            wanted >> 32,
            wanted as u32
        )),
    }
}

/// The two programs in one state, for as many journals as there are.
#[derive(Clone)]
pub struct Both<P> {
    size: Size,
    tested: P,
    second: Second,
}

impl<P: Journals + Clone> Both<P> {
    pub fn fresh(size: Size, n: u64, d: u64, own: u64) -> Option<Both<P>> {
        let (tested, second) =
            (P::fresh(size, n, d, own).ok()?, Second::fresh(size, n, d, own).ok()?);
        Some(Both { size, tested, second })
    }

    pub fn second(&self) -> &Second {
        &self.second
    }

    /// Replays a journal into both: the answer, and what they are then. The buffers are so many bytes
    /// longer or shorter than they must be.
    pub fn replay(
        &self,
        journal: &[u8],
        (more_out, more_report): (isize, isize),
        met: &mut Met,
    ) -> Result<(u64, Both<P>), String> {
        let Both { size, mut tested, mut second } = self.clone();
        let length = |least: usize, more| vec![0xc3; least.saturating_add_signed(more)];
        let slots = journal.len() / SLOT;
        let mut buffers =
            (length(size.out_length(), more_out), length(12 + 4 * slots, more_report));
        let mut wanted = buffers.clone();
        let answers = (
            tested.replay(journal, &mut buffers.0, &mut buffers.1),
            second.replay(journal, &mut wanted.0, &mut wanted.1),
        );
        met.count(journal, answers.1, &wanted.1);
        let answer = alike("journal_replay", answers, buffers == wanted)?;
        let (got, wanted) = (tested.shown(), second.shown());
        if got != wanted {
            let at = got.iter().zip(&wanted).position(|(got, wanted)| got != wanted);
            let place = at.map_or("their lengths".into(), |at| shown::place(size, at));
            return Err(format!("the stores differ after the replay: {place}"));
        }
        Ok((answer, Both { size, tested, second }))
    }
}

impl Met {
    fn count(&mut self, journal: &[u8], answer: u64, report: &[u8]) {
        count(&mut self.replay, answer);
        if answer >> 32 == u64::from(Refusal::Length.number()) {
            return;
        }
        let number = |at: usize| u32::from_be_bytes(report[at..at + 4].try_into().expect("four"));
        self.records += u64::from(number(0));
        self.torn += u64::from(number(8));
        if answer >> 32 == JOURNAL {
            let at = number(4) as usize * SLOT;
            let slot = journal[at..at + SLOT].try_into().expect("a slot");
            let why = match Slot::of(slot) {
                Slot::Whole { sequence, .. } if sequence != number(0) => 1,
                Slot::Whole { .. } => 2,
                _ => 0,
            };
            self.stops[why] += 1;
        }
    }
}

/// A random journal of a seed: written by both programs with cuts on the way, replayed, and then
/// damaged in many ways. Gives back how the programs differ, if they do.
pub fn run<P: Journals + Clone>(size: Size, seed: u64, met: &mut Met) -> Result<(), String> {
    let mut random = Random::new(seed ^ 0x0070_6f77_6572);
    let mut source = Scripted::new(size, seed);
    let Some(Input::Fresh { n, d, own }) = source.next(None) else { return Ok(()) };
    let Some(fresh) = Both::<P>::fresh(size, n, d, own) else { return Ok(()) };
    met.journals += 1;
    let slots = 1 + random.place(60);
    let mut journal = vec![0; slots * SLOT + random.place(SLOT)];
    let mut station = fresh.second.clone();
    let mut records = 0;
    while let Some(input) = source.next(Some(station.station())) {
        let (kind, bytes) = of(&input);
        if random.one_in(8) {
            cut::<P>(&mut journal, records, kind, bytes, &mut random, met)?;
            continue;
        }
        let before = journal.clone();
        let written = write::<P>(&mut journal, kind, bytes, met)? >> 32 == 0;
        let mut after = station.clone();
        let number = match kind {
            1 => after.tick().number,
            2 => after.offer(bytes).number,
            _ => after.step(bytes).number,
        };
        match number {
            0 | 6 | 7 | 8 if written => {
                station = after;
                records += 1;
            }
            0 | 6 | 7 | 8 => break,
            // Refused otherwise: it is kept by no host.
            _ => journal = before,
        }
    }
    let (answer, replayed) = fresh.replay(&journal, (0, 0), met)?;
    if (answer, replayed.second.shown()) != (records, station.shown()) {
        return Err("a replay is not the run that was written".into());
    }
    // Another station's journal, and the same one once more.
    let other = Both::<P>::fresh(size, n, d, (own + 1) % n).ok_or("good settings")?;
    other.replay(&journal, (1, 1), met)?;
    replayed.replay(&journal, (0, 0), met)?;
    for _ in 0..8 {
        let mut damaged = journal.clone();
        for _ in 0..=random.place(2) {
            damage(&mut damaged, &mut random);
        }
        let more = |random: &mut Random| random.pick(&[0, 0, 0, 0, 0, 1, 40, -1, -13]);
        let lengths = (more(&mut random), more(&mut random));
        fresh.replay(&damaged, lengths, met)?;
        same_slots(&damaged)?;
        let input = random.pick(&[(1, 0), (1, 1), (2, 32), (2, 31), (3, 15), (0, 0), (4, 0)]);
        write::<P>(&mut damaged, input.0, &[7; 32][..input.1], met)?;
        let length = random.pick(&[SLOT, SLOT, SLOT, 0, SLOT - 1, SLOT + 1, 2 * SLOT]);
        let mut slot = vec![0; length.min(journal.len())];
        if random.one_in(3) && !slot.is_empty() {
            let at = random.place(slot.len());
            slot[at] = 1;
        }
        let sequence = random.pick(&[0, 1, 255, u64::from(u32::MAX), 1 << 32, u64::MAX]);
        put::<P>(&mut slot, sequence, input.0, &[0; 32][..input.1], met)?;
    }
    Ok(())
}

/// What a Rust host reads of each slot is what the second program reads.
fn same_slots(journal: &[u8]) -> Result<(), String> {
    for (place, slot) in journal.as_chunks().0.iter().enumerate() {
        let is_same = match (station::Slot::of(slot), Slot::of(slot)) {
            (station::Slot::Blank, Slot::Blank) => true,
            (station::Slot::Torn, Slot::Torn) => true,
            (station::Slot::Unreadable, Slot::Bad) => true,
            (
                station::Slot::Record { sequence: got, input },
                Slot::Whole { sequence, kind, input: bytes },
            ) => (got, input.kind(), input.bytes()) == (sequence, kind, bytes),
            _ => false,
        };
        if !is_same {
            return Err(format!("slot {place} is read otherwise by the host"));
        }
    }
    Ok(())
}

/// A record is written to the first blank slot, and cut after some of its bytes.
fn cut<P: Journals>(
    journal: &mut [u8],
    records: u64,
    kind: u64,
    input: &[u8],
    random: &mut Random,
    met: &mut Met,
) -> Result<(), String> {
    let mut slot = [0; SLOT];
    let blank = journal.chunks_exact_mut(SLOT).find(|slot| **slot == [0; SLOT]);
    if put::<P>(&mut slot, records, kind, input, met)? == SLOT as u64
        && let Some(blank) = blank
    {
        let bytes = 1 + random.place(SLOT - 1);
        blank[..bytes].copy_from_slice(&slot[..bytes]);
    }
    Ok(())
}

/// Damages a journal: a byte, a whole slot, the order of slots, or its length.
fn damage(journal: &mut Vec<u8>, random: &mut Random) {
    let slots = journal.len() / SLOT;
    if slots == 0 {
        return;
    }
    let (one, other) = (random.place(slots) * SLOT, random.place(slots) * SLOT);
    let whole = one..one + SLOT;
    match random.below(9) {
        // any byte
        0 => journal[one + random.place(SLOT)] = random.number() as u8,
        // its head: tags, sequence, length and kind
        1 => journal[one + random.place(12)] ^= 1 << random.below(8),
        // the sequence
        2 => journal[one + 6] = journal[one + 6].wrapping_add(random.pick(&[1, 255])),
        // the last byte
        3 => journal[one + SLOT - 1] = random.pick(&[0x5a, 0x5a, 0, 0x5b]),
        // what should be zero
        4 => journal[one + SLOT - 2 - random.place(8)] = random.pick(&[1, 0x5a]),
        // a slot twice
        5 => journal.copy_within(whole, other),
        // a slot that is gone, or blank
        6 => drop(journal.drain(whole)),
        7 => journal[whole].fill(0),
        // the end is gone
        _ => journal.truncate(random.place(journal.len())),
    }
}
