//! Journals in files: kept, cut after any byte, full, and damaged.

use station::{
    Cause, Effect, Failure, GENESIS, Input, Kept, Message, Name, Phase, Refusal, Report, SLOT,
    Size, Slot, Station, ffi,
};
use std::fs::{self, OpenOptions};
use std::io::{self, ErrorKind, Write};
use std::path::{Path, PathBuf};

const ROOM: u32 = 64;

/// Where a test's journal is; nothing is there yet.
fn path(test: &str) -> PathBuf {
    let path = Path::new(env!("CARGO_TARGET_TMPDIR")).join(format!("{test}.journal"));
    let _ = fs::remove_file(&path);
    path
}

/// Puts these bytes, and no others, into a file that is there.
fn lay(path: &Path, bytes: &[u8]) -> io::Result<()> {
    let mut file = OpenOptions::new().write(true).open(path)?;
    file.write_all(bytes)?;
    file.set_len(bytes.len() as u64)
}

/// Station 1 of three, which leads view 1.
fn begin(path: &Path) -> Kept {
    Kept::begin(path, ROOM, Size::Small, 3, 2, 1).unwrap()
}

fn resume(path: &Path) -> Result<(Kept, Report), Failure> {
    Kept::resume(path, Size::Small, 3, 2, 1)
}

fn vote(height: u32, name: Name) -> Vec<u8> {
    Message::Vote { view: 1, height, name, author: 0 }.encode()
}

/// A status opens a tally that is nobody's.
fn status(name: Name) -> Vec<u8> {
    Message::Status { height: 1, name, certificate_view: 1, mask: 0b011 }.encode()
}

fn propose() -> Vec<u8> {
    let (view, height, parent, mask, author) = (2, 1, GENESIS, 0b011, 2);
    Message::Propose { view, height, name: [9; 32], parent, mask, author }.encode()
}

/// Inputs of every kind, all of them taken; the last is the longest message.
fn inputs() -> Vec<(u8, Vec<u8>)> {
    let mut inputs = vec![(1, vec![]); 5];
    inputs.push((3, vote(0, GENESIS)));
    inputs.push((2, vec![7; 32]));
    inputs.push((3, vote(1, [7; 32])));
    inputs.push((3, Message::Blame { view: 1, author: 0 }.encode()));
    inputs.push((1, vec![]));
    inputs.push((3, propose()));
    inputs
}

fn input((kind, bytes): &(u8, Vec<u8>)) -> Input<'_> {
    match kind {
        1 => Input::Tick,
        2 => Input::Offer(bytes.as_slice().try_into().unwrap()),
        _ => Input::Message(bytes),
    }
}

/// A journal with those inputs, and the store after each number of them.
fn recorded(path: &Path) -> Vec<Vec<u8>> {
    let mut kept = begin(path);
    let mut stores = vec![kept.station().store().to_vec()];
    for one in &inputs() {
        kept.take(input(one)).unwrap();
        stores.push(kept.station().store().to_vec());
    }
    stores
}

#[test]
fn a_journal_gives_its_station_again() {
    let path = path("again");
    let stores = recorded(&path);
    let records = inputs().len() as u32;
    let (mut kept, report) = resume(&path).unwrap();
    assert_eq!(report, Report { records, end: records, torn: vec![] });
    assert_eq!(kept.station().store(), stores[records as usize]);
    assert_eq!((kept.journal().slots(), kept.journal().room()), (ROOM, ROOM - records));

    // The records say what was handed over, and give again what was said.
    let bytes = fs::read(&path).unwrap();
    let wanted = inputs();
    assert!(Slot::inputs(&bytes).eq(wanted.iter().map(input)));
    let mut station = Station::fresh(Size::Small, 3, 2, 1).unwrap();
    let said = |input| station.take(input).unwrap().collect::<Vec<Effect>>();
    let said: Vec<Vec<Effect>> = Slot::inputs(&bytes).map(said).collect();
    assert_eq!((said[4].len(), said[6].len()), (2, 2), "a new-view and a propose, voted for");
    assert_eq!(station.store(), kept.station().store());

    kept.tick().unwrap();
    let store = kept.station().store().to_vec();
    drop(kept);
    let (kept, report) = resume(&path).unwrap();
    assert_eq!((report.records, kept.station().store()), (records + 1, &store[..]));
}

/// 02: "A cut after any byte must leave every completed record readable." The last slots are cut after
/// each of their bytes, what came later is gone; writing goes on, twice, and nothing is lost.
#[test]
fn a_cut_after_any_byte_loses_no_whole_record() {
    let path = path("cut");
    let stores = recorded(&path);
    let whole = fs::read(&path).unwrap();
    let slots = inputs().len();
    for cut in (slots - 2) * SLOT..=slots * SLOT {
        let (before, inside) = (cut / SLOT, cut % SLOT);
        let torn: Vec<u32> = if inside == 0 { vec![] } else { vec![before as u32] };
        let mut bytes = whole.clone();
        bytes[cut..].fill(0);
        lay(&path, &bytes).unwrap();
        let (mut kept, report) = resume(&path).unwrap();
        let end = (before + torn.len()) as u32;
        assert_eq!(report, Report { records: before as u32, end, torn: torn.clone() }, "{cut}");
        assert_eq!(kept.station().store(), stores[before], "{cut}");
        for one in &inputs()[before..] {
            kept.take(input(one)).unwrap();
        }
        kept.tick().unwrap();
        let store = kept.station().store().to_vec();
        drop(kept);

        // What was written since is cut as well.
        let mut bytes = fs::read(&path).unwrap();
        let next = slots + torn.len();
        bytes[(next + 1) * SLOT - 1 - cut % (SLOT - 1)..].fill(0);
        lay(&path, &bytes).unwrap();
        let (mut kept, report) = resume(&path).unwrap();
        assert_eq!(report.records as usize, slots, "{cut}");
        assert_eq!(report.torn, [torn.clone(), vec![next as u32]].concat(), "{cut}");
        assert_eq!(kept.station().store(), stores[slots], "{cut}");
        kept.tick().unwrap();
        assert_eq!(kept.station().store(), store, "{cut}");
    }
}

/// A file that ends within a slot: "Fewer than 128 bytes at the end are no slot."
#[test]
fn a_short_file_ends_with_its_last_slot() {
    let path = path("short");
    let stores = recorded(&path);
    let whole = fs::read(&path).unwrap();
    let slots = inputs().len();
    for length in [0, 1, 127, 128, slots * SLOT - 1, slots * SLOT, slots * SLOT + 5] {
        lay(&path, &whole[..length]).unwrap();
        let (mut kept, report) = resume(&path).unwrap();
        let end = (length / SLOT) as u32;
        assert_eq!(report, Report { records: end, end, torn: vec![] });
        assert_eq!(kept.journal().room(), 0);
        let Err(Failure::Refused(Refusal::Journal)) = kept.tick() else { panic!("{length}") };
        assert_eq!(kept.station().store(), stores[end as usize]);
        kept.lengthen(2).unwrap();
        kept.tick().unwrap();
        drop(kept);
        assert_eq!(fs::read(&path).unwrap().len(), (end as usize + 2) * SLOT);
        let (kept, report) = resume(&path).unwrap();
        assert_eq!(report, Report { records: end + 1, end: end + 1, torn: vec![] });
        assert_eq!(kept.journal().room(), 1);
    }
}

/// "with none left it is refused with 13 and nothing is written": nor has the station changed.
#[test]
fn a_full_journal_takes_nothing() {
    let path = path("full");
    let mut kept = Kept::begin(&path, 2, Size::Large, 3, 2, 1).unwrap();
    for _ in 0..2 {
        kept.tick().unwrap();
    }
    let (store, bytes) = (kept.station().store().to_vec(), fs::read(&path).unwrap());
    assert_eq!(kept.tick().err().and_then(|failure| failure.number()), Some(13));
    assert_eq!(kept.step(&[]).err().and_then(|failure| failure.number()), Some(4));
    assert_eq!((kept.station().store(), &fs::read(&path).unwrap()), (&store[..], &bytes));
    kept.lengthen(1).unwrap();
    kept.tick().unwrap();
    assert_eq!((kept.station().clock(), kept.journal().room()), (3, 0));
    assert_eq!(kept.lengthen(u32::MAX).err().and_then(|failure| failure.number()), Some(1));
    drop(kept);
    let (kept, _) = Kept::resume(&path, Size::Large, 3, 2, 1).unwrap();
    assert_eq!(kept.station().clock(), 3);
}

/// What changes nothing is not kept; what stops the station is.
#[test]
fn refused_inputs_leave_no_record() {
    let path = path("refused");
    let mut kept = Kept::begin(&path, 1024, Size::Small, 3, 2, 2).unwrap();
    let blame = Message::Blame { view: Size::Small.views() + 1, author: 1 }.encode();
    assert_eq!(kept.step(&[1, 2]).err().and_then(|failure| failure.number()), Some(4));
    assert_eq!(kept.step(&blame).err().and_then(|failure| failure.number()), Some(5));
    assert_eq!(kept.offer(&[7; 32]).err().and_then(|failure| failure.number()), Some(9));
    assert_eq!(kept.journal().records(), 0);
    drop(kept);

    // As many tallies as there is room for, through the journal's calls: the disk is waited for once.
    let mut bytes = fs::read(&path).unwrap();
    let name = |number: u32| std::array::from_fn(|place| number.to_be_bytes()[place % 4] ^ 0x33);
    let room = Size::Small.tallies() as u32;
    for number in 0..room {
        let place = ffi::journal_write(&mut bytes, 3, &status(name(number)));
        assert_eq!(place, u64::from(number));
    }
    lay(&path, &bytes).unwrap();
    let (mut kept, report) = Kept::resume(&path, Size::Small, 3, 2, 2).unwrap();
    assert_eq!(report.records, room);
    let refused = kept.step(&status(name(room))).err();
    assert_eq!(refused.and_then(|failure| failure.number()), Some(6));
    assert_eq!(kept.journal().records(), room + 1);
    drop(kept);
    let (mut kept, report) = Kept::resume(&path, Size::Small, 3, 2, 2).unwrap();
    assert_eq!(report.records, room + 1);
    assert_eq!(kept.station().phase(), Phase::Stopped(Cause::Full));
    assert_eq!(kept.tick().err().and_then(|failure| failure.number()), Some(3));
    assert_eq!(kept.journal().records(), room + 1);
}

/// 13 is reported with its place, and the file stays as it was.
#[test]
fn a_damaged_journal_takes_nothing() {
    let path = path("damaged");
    recorded(&path);
    let whole = fs::read(&path).unwrap();
    let damaged = |at: usize, byte: u8, place: u32| {
        let mut bytes = whole.clone();
        assert_ne!(bytes[at], byte);
        bytes[at] = byte;
        lay(&path, &bytes).unwrap();
        let failure = resume(&path).unwrap_err();
        let Failure::Damaged(report) = &failure else { panic!("{failure}") };
        assert_eq!((report.records, report.end), (place, place));
        assert_eq!(failure.number(), Some(13));
        assert_eq!(fs::read(&path).unwrap(), bytes);
    };
    damaged(3 * SLOT + 6, 2, 3); // a repeated number
    damaged(3 * SLOT + 6, 4, 3); // a missing one
    damaged(2 * SLOT + 100, 1, 2); // what should be zero
    damaged(10, 9, 0); // no kind of input

    // Torn, so that its number is missing in the slot after it.
    let mut bytes = whole.clone();
    bytes[4 * SLOT - 1] = 0;
    lay(&path, &bytes).unwrap();
    let Err(Failure::Damaged(report)) = resume(&path) else { panic!("a number is missing") };
    assert_eq!(report, Report { records: 3, end: 4, torn: vec![3] });

    // Another station's: an offer that this one doesn't take.
    lay(&path, &whole).unwrap();
    let other = Kept::resume(&path, Size::Small, 3, 2, 0);
    let Err(Failure::Damaged(report)) = other else { panic!("station 0 doesn't lead") };
    assert_eq!(report, Report { records: 6, end: 6, torn: vec![] });
}

/// A blank slot ends a journal, so nothing may stand behind one.
#[test]
fn nothing_is_written_before_a_stray_slot() {
    let path = path("stray");
    recorded(&path);
    let mut bytes = fs::read(&path).unwrap();
    bytes[20 * SLOT + 3] = 1;
    lay(&path, &bytes).unwrap();
    let Err(Failure::Stray { place: 20 }) = resume(&path) else { panic!("slot 20 isn't blank") };
    assert_eq!(fs::read(&path).unwrap(), bytes);
}

/// A journal is never begun over another, and never open twice.
#[test]
fn a_journal_has_one_owner() {
    let path = path("owner");
    let kept = begin(&path);
    let kind = |failure| match failure {
        Failure::Disk(error) => error.kind(),
        other => panic!("{other}"),
    };
    assert_eq!(kind(resume(&path).unwrap_err()), ErrorKind::ResourceBusy);
    drop(kept);
    let again = Kept::begin(&path, ROOM, Size::Small, 3, 2, 1);
    assert_eq!(kind(again.unwrap_err()), ErrorKind::AlreadyExists);
    assert!(resume(&path).is_ok());
    let refused = Kept::begin(&path.with_extension("none"), ROOM, Size::Small, 4, 2, 1);
    assert_eq!(refused.unwrap_err().number(), Some(10));
    assert!(!path.with_extension("none").exists());
}
