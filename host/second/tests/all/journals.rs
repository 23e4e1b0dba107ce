//! 02's "Power cuts at the dome", sentence by sentence.

use crate::common::{blame, propose, vote, Bytes, ZERO};
use second::journal::{put, read, replay, write, Found, Slot, SLOT};
use second::{Limits, Station};

const NO: u64 = 13 << 32;

fn station() -> Station {
    Station::fresh(Limits::SMALL, 3, 2, 2).expect("good settings")
}

fn found(journal: &[u8]) -> Found {
    read(journal, &mut station(), |_| ())
}

/// A journal of these ticks' sequence numbers.
fn ticks(sequences: &[u64]) -> Bytes {
    let mut journal = vec![0; sequences.len() * SLOT];
    for (slot, sequence) in journal.chunks_exact_mut(SLOT).zip(sequences) {
        assert_eq!(put(slot, *sequence, 1, &[]), 128);
    }
    journal
}

/// "tag 20 with a four-byte sequence number, tag 21 with one input, zeros, and last byte 5A."
#[test]
fn a_record_has_its_form() {
    let mut slot = [0; SLOT];
    assert_eq!(put(&mut slot, 0x0102_0304, 3, &blame(1, 2)), 128);
    assert_eq!(slot[..11], [0x20, 0, 4, 1, 2, 3, 4, 0x21, 0, 16, 3]);
    assert_eq!(slot[11..26], blame(1, 2));
    assert_eq!(slot[26..127], [0; 101]);
    assert_eq!(slot[127], 0x5a);
    let whole = Slot::Whole { sequence: 0x0102_0304, kind: 3, input: &blame(1, 2) };
    assert_eq!(Slot::of(&slot), whole);
    assert_eq!(put(&mut slot, 0, 1, &[]), NO, "it is not blank");
}

#[test]
fn only_inputs_are_put() {
    let good: [(u64, Bytes); 5] = [
        (1, vec![]),
        (2, vec![0; 32]),
        (3, vote(1, 1, [7; 32], 0)),
        (3, propose(77, 0, ZERO, ZERO, 0, 99)),
        (3, blame(1, 2)),
    ];
    for (kind, input) in &good {
        assert_eq!(put(&mut [0; SLOT], u32::MAX.into(), *kind, input), 128);
        assert_eq!(put(&mut [0; SLOT], 1 << 32, *kind, input), NO);
        assert_eq!(put(&mut [0; SLOT - 1], 0, *kind, input), 1 << 32);
        assert_eq!(put(&mut [0; SLOT], 0, *kind + 256, input), NO);
        assert_eq!(put(&mut [0; SLOT], 0, *kind, &[&input[..], &[0]].concat()), NO);
    }
    for kind in [0, 4, 5, 1 << 32 | 1] {
        assert_eq!(put(&mut [0; SLOT], 0, kind, &[]), NO);
    }
}

/// "A cut after any byte must leave every completed record readable."
#[test]
fn a_cut_record_is_torn_and_passed_over() {
    let whole = ticks(&[0, 1]);
    for cut in 0..=SLOT {
        let mut journal = whole.clone();
        journal[SLOT + cut..].fill(0);
        journal.extend([0; 2 * SLOT]);
        let torn = if (1..SLOT).contains(&cut) { vec![1] } else { vec![] };
        let records = 1 + cut / SLOT;
        let end = records + torn.len();
        let is_stopped = false;
        assert_eq!(found(&journal), Found { records, end, torn: torn.clone(), is_stopped });
        assert_eq!(write(&mut journal, 1, &[]), end as u64, "in the first blank slot");
        let (records, end) = (records + 1, end + 1);
        assert_eq!(found(&journal), Found { records, end, torn, is_stopped });
    }
}

/// "A missing or repeated number, or a slot ending in 5A that doesn't read, stops replay with refusal
/// 13 and leaves the state of the records before it". Nothing is written behind such a slot.
#[test]
fn replay_stops_at_a_damaged_slot() {
    let mut padded = ticks(&[0, 1, 2]);
    padded[SLOT + 126] = 1;
    for mut journal in [ticks(&[0, 0, 1]), ticks(&[0, 2, 3]), padded] {
        journal.extend([0; SLOT]);
        let mut station = station();
        let (mut out, mut report) = (vec![7; Limits::SMALL.out], [7; 30]);
        assert_eq!(replay(&journal, &mut station, &mut out, &mut report), NO | 1);
        assert_eq!(station.clock(), 1);
        assert_eq!(report[..12], [0, 0, 0, 1, 0, 0, 0, 1, 0, 0, 0, 0]);
        assert_eq!(report[12..], [7; 18]);
        let before = journal.clone();
        assert_eq!(write(&mut journal, 1, &[]), NO);
        assert_eq!(journal, before);
    }
    assert_eq!(found(&ticks(&[1])), Found { is_stopped: true, ..Found::default() });
}

/// A torn slot has no number: "Sequence numbers count whole records".
#[test]
fn a_torn_slot_is_not_counted() {
    let mut journal = ticks(&[0, 9, 1, 2]);
    journal[2 * SLOT - 1] = 0x5b;
    assert_eq!(found(&journal), Found { records: 3, end: 4, torn: vec![1], is_stopped: false });
}

/// "a blank slot or the journal's end ends it well. Fewer than 128 bytes at the end are no slot."
#[test]
fn a_journal_ends_well() {
    let mut journal = ticks(&[0, 1, 5]);
    journal[SLOT..2 * SLOT].fill(0);
    assert_eq!(found(&journal), Found { records: 1, end: 1, ..Found::default() });
    let mut journal = ticks(&[0, 1, 2]);
    journal.truncate(3 * SLOT - 1);
    assert_eq!(found(&journal), Found { records: 2, end: 2, ..Found::default() });
    assert_eq!(write(&mut journal, 1, &[]), NO, "none is left");
    assert_eq!(found(&[]), Found::default());
    assert_eq!(write(&mut [], 1, &[]), NO);
}

/// "The state after replay equals the one those inputs give from fresh", with what they wrote.
#[test]
fn a_replay_is_the_run() {
    let inputs: [(u64, Bytes); 3] =
        [(1, vec![]), (3, propose(1, 1, [7; 32], ZERO, 0b011, 1)), (1, vec![])];
    let (mut run, mut out) = (station(), Vec::new());
    let mut journal = vec![0; 4 * SLOT];
    for (place, (kind, input)) in inputs.iter().enumerate() {
        match kind {
            1 => assert_eq!(run.tick(&mut out), 0),
            _ => assert_eq!(run.step(input, &mut out), 0),
        }
        assert_eq!(write(&mut journal, *kind, input), place as u64);
    }
    let (mut again, mut said) = (station(), Vec::new());
    let found = read(&journal, &mut again, |out| said.extend_from_slice(out));
    assert_eq!((found.records, said), (3, out));
    assert_eq!(format!("{again:?}"), format!("{run:?}"));
}

/// What this station answers with anything but 0, 6, 7 or 8 is not of its journal.
#[test]
fn a_refused_input_stops_a_replay() {
    let mut journal = ticks(&[0, 1]);
    journal[SLOT..].fill(0);
    put(&mut journal[SLOT..], 1, 2, &[7; 32]);
    assert_eq!(found(&journal), Found { records: 1, end: 1, torn: vec![], is_stopped: true });
    let blank = [0; SLOT];
    let mut out = vec![0; Limits::SMALL.out];
    let short = replay(&blank, &mut station(), &mut out, &mut [0; 15]);
    assert_eq!(short, 1 << 32, "a report has four bytes for each slot");
    let short = replay(&blank, &mut station(), &mut out[1..], &mut [0; 16]);
    assert_eq!(short, 1 << 32);
    assert_eq!(replay(&blank, &mut station(), &mut out, &mut [0; 16]), 0);
}
