//! What the program says of slips, good and bad.

use slips::{tell, tell_by};
use station::{GENESIS, Message, Name, Size, Station};
use std::io::Write;
use std::process::{Command, Output, Stdio};

const END: &str = "\nA slip shows a chain, not a commit. Each entry below the top was certified by\n\
the stations named above it, f+1 of the group or more. Whether any station has\n\
logged the top is not on this slip: ask a station for its log.\n";

fn name(height: u32) -> Name {
    if height == 0 { GENESIS } else { [0xa0 + (height % 64) as u8; 32] }
}

fn propose(height: u32) -> Message {
    Message::Propose {
        view: 1,
        height,
        name: name(height),
        parent: name(height - 1),
        mask: 3,
        author: 1,
    }
}

fn slip_of(block: Name, entries: &[Message]) -> Vec<u8> {
    let mut bytes = [&[0x40, 0, 32][..], &block].concat();
    for entry in entries {
        bytes.extend([0x41, 0, 97]);
        bytes.extend(entry.encode());
    }
    bytes
}

fn good(height: u32) -> Vec<u8> {
    let entries: Vec<Message> = (1..=height).rev().map(propose).collect();
    slip_of(name(height), &entries)
}

fn said(input: &[u8]) -> (bool, String) {
    let told = tell(Size::Small, 3, input).expect("a group of three");
    assert!(told.said.lines().all(|line| line.chars().count() <= 80), "{}", told.said);
    (told.is_accepted, told.said)
}

#[test]
fn a_good_one() {
    let expected = format!(
        "accepted: 3 entries, in a group of 3 stations\n\
         block {}\n\
         \n\
         place height view leader  name            the block below is certified by\n    \
             0      3    1      1  a3a3a3a3a3a3..  0+1\n    \
             1      2    1      1  a2a2a2a2a2a2..  0+1\n    \
             2      1    1      1  a1a1a1a1a1a1..  0+1\n{END}",
        "a3".repeat(32)
    );
    assert_eq!(said(&good(3)), (true, expected.clone()));
    let hex: String = good(3).iter().map(|byte| format!("{byte:02X}")).collect();
    assert_eq!(said(hex.as_bytes()), (true, expected.clone()));
    assert_eq!(said(format!("{}\n{}\n", &hex[..70], &hex[70..]).as_bytes()), (true, expected));
}

#[test]
fn each_kind_of_bad_place() {
    let mut other_kind = good(3);
    let vote = Message::NewView {
        view: 2,
        height: 2,
        name: name(2),
        certificate_view: 1,
        mask: 3,
        author: 2,
    };
    other_kind[138..138 + 69].copy_from_slice(&vote.encode());
    let minority =
        Message::Propose { view: 1, height: 2, name: name(2), parent: name(1), mask: 1, author: 1 };
    let cases: [(Vec<u8>, u32, &str); 9] = [
        (vec![], 0, "there is no name"),
        (slip_of(name(3), &[]), 0, "there: nothing, an entry is missing"),
        (slip_of(GENESIS, &[]), 0, "there: nothing, an entry is missing"),
        (
            slip_of(name(4), &[propose(3), propose(2), propose(1)]),
            0,
            "there: height 3 view 1 leader 1 name a3a3a3a3a3a3.. mask 0+1\nnot allowed, or not the block that stands above it asks for",
        ),
        (
            slip_of(name(3), &[propose(3), minority, propose(1)]),
            1,
            "there: height 2 view 1 leader 1 name a2a2a2a2a2a2.. mask 0\nnot allowed, or not the block that stands above it asks for",
        ),
        (
            slip_of(name(3), &[propose(3), propose(1)]),
            1,
            "there: height 1 view 1 leader 1 name a1a1a1a1a1a1.. mask 0+1\nnot allowed, or not the block that stands above it asks for",
        ),
        (slip_of(name(3), &[propose(3), propose(2)]), 2, "there: nothing, an entry is missing"),
        (good(3)[..300].to_vec(), 2, "there: bytes that are no entry"),
        (
            [good(3), good(1)[35..].to_vec()].concat(),
            3,
            "there: height 1 view 1 leader 1 name a1a1a1a1a1a1.. mask 0+1\nnot allowed, or not the block that stands above it asks for",
        ),
    ];
    for (slip, place, there) in cases {
        let length = slip.len();
        let expected =
            format!("refused: 15, no slip, bad at place {place} of {length} bytes\n{there}\n{END}");
        assert_eq!(said(&slip), (false, expected));
    }
    assert!(said(&other_kind).1.contains("bad at place 1"));
}

#[test]
fn one_of_128_entries() {
    let (is_accepted, said) = said(&good(128));
    assert!(is_accepted);
    assert!(said.starts_with("accepted: 128 entries, in a group of 3 stations\n"));
    assert_eq!(said.lines().count(), 4 + 128 + 4);
}

#[test]
fn fifteen_stations_fit_a_line() {
    let mask = 0x7fff;
    let entry =
        Message::Propose { view: 1, height: 1, name: name(1), parent: GENESIS, mask, author: 1 };
    let told = tell(Size::Large, 15, &slip_of(name(1), &[entry])).expect("a group of fifteen");
    assert!(told.is_accepted && told.said.lines().all(|line| line.len() <= 80), "{}", told.said);
}

/// Three blocks: the first was certified by a vote before the next entry came, the second by the third,
/// the top by nobody.
fn station(size: Size) -> Station {
    let mut station = Station::fresh(size, 3, 2, 2).expect("good settings");
    for height in 1..=3 {
        for _ in 0..2 {
            station.tick().expect("a tick");
        }
        station.step(&propose(height).encode()).expect("a good propose");
        if height == 1 {
            let vote = Message::Vote { view: 1, height, name: name(height), author: 0 };
            station.step(&vote.encode()).expect("a good vote");
        }
    }
    for _ in 0..5 {
        station.tick().expect("a tick");
    }
    station
}

#[test]
fn when_a_store_saw_each_certified() {
    for size in Size::ALL {
        let station = station(size);
        let slip = station.slip(&name(3)).expect("a logged block");
        assert_eq!(slip, good(3));
        let (_, plain) = said(&slip);
        let told = tell_by(&station, &slip).expect("a group of three");
        let seen = "\nseen certified by station 2, whose clock is 11 now\n\
                    place height  at clock\n    \
                        0      3  not seen\n    \
                        1      2  6\n    \
                        2      1  2\n";
        let expected = plain.replace(END, &format!("{seen}{END}"));
        assert_eq!((told.is_accepted, told.said), (true, expected));
        // one that is refused has no entries to speak of
        let bad = tell_by(&station, &slip[1..]).expect("a group of three");
        assert_eq!((bad.is_accepted, bad.said), (false, said(&slip[1..]).1));
    }
}

/// A block certified anew in the view of the entry above: the earlier clock counts.
#[test]
fn certified_in_another_view() {
    let first =
        Message::Propose { view: 1, height: 1, name: name(1), parent: GENESIS, mask: 3, author: 1 };
    let above =
        Message::Propose { view: 2, height: 2, name: name(2), parent: name(1), mask: 6, author: 2 };
    let slip = slip_of(name(2), &[above, first]);
    let status = Message::Status { height: 1, name: name(1), certificate_view: 1, mask: 5 };
    for (messages, first) in [
        (vec![(2, above), (4, status)], 2),
        (vec![(3, status), (5, above)], 3),
        (vec![(6, status)], 6),
        (vec![(7, above)], 7),
    ] {
        let mut station = Station::fresh(Size::Small, 3, 2, 0).expect("good settings");
        for (clock, message) in messages {
            while station.clock() < clock {
                station.tick().expect("a tick");
            }
            station.step(&message.encode()).expect("a good message");
        }
        let told = tell_by(&station, &slip).expect("a group of three").said;
        let seen = format!("    0      2  not seen\n    1      1  {first}\n");
        assert!(told.contains(&seen), "{told}");
    }
    let nothing = Station::fresh(Size::Small, 3, 2, 0).expect("good settings");
    let told = tell_by(&nothing, &slip).expect("a group of three").said;
    assert!(told.contains("    0      2  not seen\n    1      1  not seen\n"), "{told}");
}

fn run(words: &[&str], input: &[u8]) -> Output {
    let mut program = Command::new(env!("CARGO_BIN_EXE_slip"))
        .args(words)
        .stdin(Stdio::piped())
        .stdout(Stdio::piped())
        .stderr(Stdio::piped())
        .spawn()
        .expect("the program");
    // one that doesn't read its input may be gone
    let _ = program.stdin.take().expect("a pipe").write_all(input);
    program.wait_with_output().expect("an end")
}

#[test]
fn cut_short_at_every_byte() {
    let slip = good(3);
    assert_eq!(run(&["3"], &slip).status.code(), Some(0));
    for length in 0..slip.len() {
        let output = run(&["3"], &slip[..length]);
        let place = length.saturating_sub(35) / 100;
        let said = String::from_utf8(output.stdout).expect("text");
        assert_eq!(output.status.code(), Some(1), "{length}");
        assert!(
            said.starts_with(&format!(
                "refused: 15, no slip, bad at place {place} of {length} bytes\n"
            )),
            "{said}"
        );
        assert!(said.ends_with(END), "{said}");
    }
}

#[test]
fn what_can_not_be_checked() {
    for words in [&["4"][..], &["17"], &[], &["three"], &["--large", "2"], &["3", "3"]] {
        let output = run(words, &good(1));
        assert_eq!((output.status.code(), output.stdout.len()), (Some(2), 0), "{words:?}");
    }
    assert_eq!(run(&["--large", "3"], &good(1)).status.code(), Some(0));
}

/// A kept store says its group; a file that is none can't be asked.
#[test]
fn with_a_kept_store() {
    let place = std::env::temp_dir().join(format!("slip-{}", std::process::id()));
    let path = place.to_str().expect("a path of letters");
    for size in Size::ALL {
        let station = station(size);
        std::fs::write(&place, station.store()).expect("a place to write");
        let output = run(&["--store", path], &good(3));
        let told = tell_by(&station, &good(3)).expect("a group of three");
        assert_eq!((output.status.code(), output.stdout), (Some(0), told.said.into_bytes()));
        assert_eq!(run(&["--store", path], &good(3)[1..]).status.code(), Some(1));
        std::fs::write(&place, &station.store()[1..]).expect("a place to write");
        assert_eq!(run(&["--store", path], &good(3)).status.code(), Some(2));
    }
    std::fs::remove_file(&place).expect("the file");
    assert_eq!(run(&["--store", path], &good(3)).status.code(), Some(2));
}
