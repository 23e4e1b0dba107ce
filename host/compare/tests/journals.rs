//! The journal's calls of both programs: recorded cases, and cuts after every byte.

use compare::journals::{self, Both, Met};
use compare::recorded;
use programs::{Journals, Program, Proved, Second};
use second::journal::SLOT;
use second::replay::Input;
use station::{GENESIS, Message, Size, Station, ffi};

/// The sample of recorded cases.
fn recorded<P: Journals + Clone>() {
    let files = [
        include_str!("../../second/tests/data/journal/put.txt"),
        include_str!("../../second/tests/data/journal/write.txt"),
        include_str!("../../second/tests/data/journal/replay.txt"),
    ];
    for text in files {
        assert!(recorded::run::<P>(text).expect("as recorded") > 100);
    }
}

#[test]
fn the_second_program_answers_as_recorded() {
    recorded::<Second>();
}

#[test]
fn the_proved_calls_answer_as_recorded() {
    recorded::<Proved>();
}

/// Every refusal is met, and every cause of a stop, on random and damaged journals.
fn random<P: Journals + Clone>(seeds: u64) {
    let mut met = Met::default();
    for seed in 0..seeds {
        let size = if seed % 8 == 7 { Size::Large } else { Size::Small };
        journals::run::<P>(size, seed, &mut met).unwrap_or_else(|how| panic!("{seed}: {how}"));
    }
    let answers = [met.put, met.replay, met.stops].concat();
    assert!(answers.iter().all(|count| *count > 20), "{met:?}");
    assert!(met.write[0] > 1000 && met.write[2] > 1000 && met.torn > 1000, "{met:?}");
}

#[test]
fn the_second_program_is_like_itself() {
    random::<Second>(200);
}

#[test]
fn the_proved_calls_are_like_the_second_program() {
    random::<Proved>(200);
}

/// Inputs of every kind and of every length that a record has, for station 1 of three, which takes all
/// of them.
fn inputs() -> Vec<Input> {
    let name = [7; 32];
    let vote = |height, name| Message::Vote { view: 1, height, name, author: 0 };
    let mask = 0b011;
    let messages = [
        vote(1, name),
        Message::NewView { view: 2, height: 1, name, certificate_view: 1, mask, author: 2 },
        Message::Propose { view: 2, height: 1, name, parent: GENESIS, mask, author: 2 },
        Message::Status { height: 1, name, certificate_view: 1, mask },
        Message::Blame { view: 1, author: 0 },
        Message::BlameSet { view: 2, mask },
    ];
    let mut inputs = vec![Input::Tick; 5];
    inputs.push(Input::Step(vote(0, GENESIS).encode()));
    inputs.push(Input::Offer(name.to_vec()));
    inputs.extend(messages.map(|message| Input::Step(message.encode())));
    inputs.push(Input::Tick);
    inputs
}

/// A recorded journal with its last ten slots cut after every single byte, either way that a cut can
/// leave it: with zeros behind the cut, or with the journal ending there. Every whole record is read
/// again, writing goes on, and the last slot is cut once more.
#[test]
fn a_cut_after_any_byte_loses_no_whole_record() {
    let (inputs, mut met) = (inputs(), Met::default());
    let fresh = Both::<Proved>::fresh(Size::Small, 3, 2, 1).unwrap();
    let mut replay = |journal: &[u8]| fresh.replay(journal, (0, 0), &mut met).unwrap();
    let mut journal = vec![0; (inputs.len() + 4) * SLOT];
    let mut states = vec![replay(&journal).1.second().shown()];
    for (place, input) in inputs.iter().enumerate() {
        let (kind, bytes) = journals::of(input);
        assert_eq!(Proved::write(&mut journal, kind, bytes), place as u64);
        let (records, both) = replay(&journal);
        assert_eq!(records, place as u64 + 1);
        states.push(both.second().shown());
    }
    for cut in (inputs.len() - 10) * SLOT..=inputs.len() * SLOT {
        let (whole, torn) = (cut / SLOT, usize::from(cut % SLOT > 0));
        let (records, both) = replay(&journal[..cut]);
        assert_eq!((records as usize, both.second().shown()), (whole, states[whole].clone()));
        let mut left = journal.clone();
        left[cut..].fill(0);
        let (records, both) = replay(&left);
        assert_eq!((records as usize, both.second().shown()), (whole, states[whole].clone()));
        for (more, input) in inputs[whole..].iter().enumerate() {
            let (kind, bytes) = journals::of(input);
            let place = (whole + torn + more) as u64;
            assert_eq!(Proved::write(&mut left, kind, bytes), place, "{cut}");
            assert_eq!(Second::write(&mut left.clone(), kind, bytes), place + 1, "{cut}");
        }
        let (records, both) = replay(&left);
        assert_eq!(records as usize, inputs.len(), "{cut}");
        assert_eq!(both.second().shown(), states[inputs.len()], "{cut}");
        if whole < inputs.len() {
            left[(inputs.len() + torn) * SLOT - 1 - cut % (SLOT - 1)..].fill(0);
            let (records, both) = replay(&left);
            assert_eq!(records as usize, inputs.len() - 1, "{cut}");
            assert_eq!(both.second().shown(), states[inputs.len() - 1], "{cut}");
        }
    }
}

/// Of the proved call alone: the store's length (1) and form (2) come first, and nothing is written.
#[test]
fn a_replay_looks_at_the_store_first() {
    for size in Size::ALL {
        let fresh = Station::fresh(size, 3, 2, 1).unwrap();
        let mut journal = [0; 2 * SLOT];
        Proved::write(&mut journal, 1, &[]);
        journal[SLOT..].fill(0x5a);
        let length = size.store_length();
        let stores = [
            (1, fresh.store()[1..].to_vec()),
            (1, [fresh.store(), &[0]].concat()),
            (1, Vec::new()),
            (2, vec![0; length]),
            (2, [&fresh.store()[..length - 1], &[1]].concat()),
        ];
        for (refusal, store) in stores {
            let mut left = store.clone();
            let (mut out, mut report) = (vec![0xc3; size.out_length()], [0xc3; 20]);
            let answer = ffi::journal_replay(&journal, &mut left, &mut out, &mut report);
            assert_eq!(answer, refusal << 32);
            assert!(left == store && report == [0xc3; 20] && out.iter().all(|byte| *byte == 0xc3));
        }
        let (mut left, mut out) = (fresh.store().to_vec(), vec![0; size.out_length()]);
        let answer = ffi::journal_replay(&journal, &mut left, &mut out, &mut [0; 20]);
        assert_eq!(answer, 13 << 32 | 1);
        assert_eq!(Station::from_store(&left).unwrap().clock(), 1);
    }
}
