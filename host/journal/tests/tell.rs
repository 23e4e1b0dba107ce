//! What is said of a journal: docs/JOURNAL.md's run, and journals that are damaged.

use journal::{Settings, Told, script, tell};
use station::{GENESIS, Input, Message, Name, SLOT, Size, ffi};

const SETTINGS: Settings = Settings { size: Size::Small, n: 3, d: 2, own: 2 };

/// The name of the card.
fn name() -> Name {
    let mut name = GENESIS;
    name[30..].copy_from_slice(&[0xa1, 0xb2]);
    name
}

fn write(journal: &mut [u8], input: Input<'_>) -> u64 {
    ffi::journal_write(journal, input.kind().into(), input.bytes())
}

/// A journal of 16 slots: a new-view, a power cut, a propose and its commit.
fn recorded() -> Vec<u8> {
    let (view, height, name, parent, mask, author) = (1, 1, name(), GENESIS, 0b110, 1);
    let propose = Message::Propose { view, height, name, parent, mask, author };
    let (height, certificate_view, mask) = (0, 0, 0);
    let new_view = Message::NewView { view, height, name: GENESIS, certificate_view, mask, author };
    let mut journal = vec![0; 16 * SLOT];
    for _ in 0..5 {
        write(&mut journal, Input::Tick);
    }
    assert_eq!(write(&mut journal, Input::Message(&new_view.encode())), 5);
    journal[6 * SLOT..6 * SLOT + 50].fill(0x20);
    assert_eq!(write(&mut journal, Input::Message(&propose.encode())), 7);
    for _ in 0..5 {
        write(&mut journal, Input::Tick);
    }
    journal
}

fn told(journal: &[u8]) -> Told {
    tell(SETTINGS, journal).unwrap()
}

/// The lines, with the hex cut short as in docs/JOURNAL.md.
fn short(told: &Told) -> Vec<String> {
    let cut = |line: &str| match line.find(" # ") {
        Some(at) => format!("{}..", &line[..at + 15]),
        None => line.to_string(),
    };
    told.said.lines().map(cut).collect()
}

#[test]
fn it_says_what_the_page_says() {
    let page = include_str!("../../../docs/JOURNAL.md");
    let (_, section) = page.split_once("## Looking into one\n").expect("the section");
    let (_, printed) = section.split_once("prints the following").expect("what is printed");
    let lines: Vec<&str> = printed.lines().filter_map(|line| line.strip_prefix("    ")).collect();
    let told = told(&recorded());
    assert!(told.is_whole);
    assert_eq!(short(&told), lines);
}

#[test]
fn it_says_why_a_replay_stopped() {
    let recorded = recorded();
    let says = |journal: &[u8], settings: Settings, line: &str| {
        let told = tell(settings, journal).unwrap();
        assert!(!told.is_whole);
        assert!(told.said.lines().any(|said| said == line), "{}", told.said);
    };
    let mut journal = recorded.clone();
    journal[5 * SLOT + 100] = 1;
    says(&journal, SETTINGS, "slot 5: 13 journal: it ends in 5A and doesn't read");
    says(&journal, SETTINGS, "end of journal: 5 records; torn slots: none");
    says(&journal, SETTINGS, "nothing behind slot 5 was read");
    let mut journal = recorded.clone();
    journal[3 * SLOT..4 * SLOT].fill(1);
    says(&journal, SETTINGS, "slot 4: 13 journal: record 4 where 3 is due");
    says(&journal, SETTINGS, "end of journal: 3 records; torn slots: 3");
    let five = Settings { n: 5, own: 4, ..SETTINGS };
    let other = "slot 7: 13 journal: propose view 1 height 1 name a1b2 parent 0 mask 1+2 author 1: \
                 5 message not allowed, so it is not of this station";
    says(&recorded, five, other);
}

#[test]
fn it_says_what_is_left_of_odd_lengths() {
    let recorded = recorded();
    assert_eq!(
        short(&told(&[]))[..2],
        ["end of journal: 0 records; torn slots: none", "0 of 0 slots are left"]
    );
    let told = told(&recorded[..2 * SLOT + 5]);
    assert!(told.said.starts_with("slots 0 to 1: records 0 to 1: ticks 1 to 2: 0 done"));
    assert!(told.said.contains("\n0 of 2 slots are left\n5 bytes at the end are no slot\n"));
    assert_eq!(tell(Settings { n: 4, ..SETTINGS }, &recorded).unwrap_err().number(), Some(10));
}

#[test]
fn it_gives_a_script() {
    let told = script(SETTINGS, &recorded()).unwrap();
    let ticks = "tick\n".repeat(5);
    assert_eq!(
        told.said,
        format!(
            "fresh 3 2 2\n{ticks}\
             new-view view 1 height 0 name 0 certificate 0 mask - author 1\n\
             propose view 1 height 1 name a1b2 parent 0 mask 1+2 author 1\n{ticks}log\nstate\n"
        )
    );
}
