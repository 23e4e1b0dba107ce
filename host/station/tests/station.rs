//! The typed face over the archive: 01's bench where it shows in types, refusals, and kept stores.

use station::{Cause, Effect, GENESIS, Message, Name, Phase, Refusal, Size, Station};

const FIRST: Name = [1; 32];

fn propose(height: u32, name: Name, parent: Name) -> Message {
    Message::Propose { view: 1, height, name, parent, mask: 0b110, author: 1 }
}

/// Ticks to a clock; gives back what the last tick did.
fn run_to(station: &mut Station, clock: u32) -> Vec<Effect> {
    let mut last = Vec::new();
    while station.clock() < clock {
        last = station.tick().unwrap().collect();
    }
    last
}

#[test]
fn the_leader_makes_a_new_view() {
    let mut station = Station::fresh(Size::Small, 3, 2, 1).unwrap();
    assert!(station.is_leader());
    let made = Message::NewView {
        view: 1,
        height: 0,
        name: GENESIS,
        certificate_view: 0,
        mask: 0,
        author: 1,
    };
    let vote = Message::Vote { view: 1, height: 0, name: GENESIS, author: 1 };
    assert_eq!(run_to(&mut station, 5), [Effect::ToAll(made), Effect::ToAll(vote)]);
    assert_eq!((station.statements(), station.tallies()), (1, 1));
}

#[test]
fn a_propose_at_7_commits_at_12() {
    let mut station = Station::fresh(Size::Small, 3, 2, 2).unwrap();
    run_to(&mut station, 7);
    let first = propose(1, FIRST, GENESIS);
    let vote = Message::Vote { view: 1, height: 1, name: FIRST, author: 2 };
    let effects: Vec<Effect> = station.step(&first.encode()).unwrap().collect();
    assert_eq!(effects, [Effect::ToAll(first), Effect::ToAll(vote)]);
    assert_eq!(run_to(&mut station, 11), []);
    assert_eq!(run_to(&mut station, 12), [Effect::Committed { height: 1, name: FIRST }]);
    assert_eq!(station.log(), [FIRST]);
}

#[test]
fn a_quit_at_20_enters_at_23() {
    let mut station = Station::fresh(Size::Small, 3, 2, 0).unwrap();
    run_to(&mut station, 20);
    station.step(&Message::BlameSet { view: 1, mask: 0b110 }.encode()).unwrap();
    assert_eq!(station.phase(), Phase::Waiting { quit: 20 });
    let message = Message::Status { height: 0, name: GENESIS, certificate_view: 0, mask: 0 };
    assert_eq!(run_to(&mut station, 23), [Effect::ToOne { station: 2, message }]);
    assert_eq!((station.phase(), station.view(), station.entry()), (Phase::InView, 2, 23));
    assert_eq!(station.lock().name, GENESIS);
}

#[test]
fn refusals_have_their_types() {
    assert_eq!(Station::fresh(Size::Small, 3, 2, 3).err(), Some(Refusal::Settings));
    let mut station = Station::fresh(Size::Small, 3, 2, 2).unwrap();
    assert_eq!(station.step(&[1, 2, 3]).err(), Some(Refusal::Unreadable));
    let blame = Message::Blame { view: Size::Small.views() + 1, author: 1 };
    assert_eq!(station.step(&blame.encode()).err(), Some(Refusal::NotAllowed));
    let early = Message::Blame { view: 3, author: 1 };
    assert_eq!(station.step(&early.encode()).err(), Some(Refusal::Ahead));
    assert_eq!(station.offer(&FIRST).err(), Some(Refusal::NotTaken));
    assert_eq!((station.stations(), station.delay(), station.own()), (3, 2, 2));
}

/// One statement too many stops the station; its store is kept and taken up as well as any.
#[test]
fn a_full_store_is_stopped_and_kept() {
    for size in Size::ALL {
        let mut station = Station::fresh(size, 3, 2, 2).unwrap();
        let link = |height: u32| {
            let name = |height: u32| std::array::from_fn(|place| height.to_be_bytes()[place % 4]);
            propose(height, name(height), name(height - 1)).encode()
        };
        let room = size.statements() as u32;
        for height in 1..=room {
            assert_eq!(station.step(&link(height)).unwrap().count(), 2);
        }
        assert_eq!(station.statements(), size.statements());
        assert_eq!(station.step(&link(1)).unwrap().count(), 0);
        assert_eq!(station.step(&link(room + 1)).err(), Some(Refusal::Full));
        assert_eq!(station.phase(), Phase::Stopped(Cause::Full));
        let mut again = Station::from_store(station.store()).unwrap();
        assert_eq!((again.phase(), again.size()), (Phase::Stopped(Cause::Full), size));
        assert_eq!(again.tick().err(), Some(Refusal::Stopped));
    }
}

/// The last view of a size is allowed in it, and the one after it isn't.
#[test]
fn views_end_where_the_size_says() {
    for size in Size::ALL {
        let mut station = Station::fresh(size, 3, 2, 2).unwrap();
        let blame = |view| Message::Blame { view, author: 1 }.encode();
        assert_eq!(station.step(&blame(size.views())).err(), Some(Refusal::Ahead));
        assert_eq!(station.step(&blame(size.views() + 1)).err(), Some(Refusal::NotAllowed));
    }
}

/// A store has a clock for what f+1 stations voted for, which later votes leave, and a tick joins the
/// new one.
#[test]
fn certified_when_a_quorum_was_first_there() {
    for size in Size::ALL {
        let mut station = Station::fresh(size, 3, 2, 1).unwrap();
        let vote = |author| Message::Vote { view: 1, height: 0, name: GENESIS, author }.encode();
        station.step(&vote(0)).unwrap();
        run_to(&mut station, 4);
        assert_eq!(station.certified(1, 0, &GENESIS), None);
        run_to(&mut station, 5);
        assert_eq!(station.certified(1, 0, &GENESIS), Some(5));
        run_to(&mut station, 6);
        station.step(&vote(2)).unwrap();
        assert_eq!(station.certified(1, 0, &GENESIS), Some(5));
        station.step(&propose(1, FIRST, GENESIS).encode()).unwrap();
        assert_eq!(station.certified(1, 1, &FIRST), None);
        let status = Message::Status { height: 1, name: FIRST, certificate_view: 1, mask: 0b101 };
        station.step(&status.encode()).unwrap();
        assert_eq!(station.certified(1, 1, &FIRST), Some(6));
        for (view, height, name) in
            [(0, 0, GENESIS), (2, 1, FIRST), (1, 2, FIRST), (u32::MAX, 1, FIRST)]
        {
            assert_eq!(station.certified(view, height, &name), None);
        }
        let again = Station::from_store(station.store()).unwrap();
        assert_eq!(again.certified(1, 1, &FIRST), Some(6));
    }
}

/// A store from before tallies had clocks has neither length.
#[test]
fn old_stores_are_refused_by_their_length() {
    for size in Size::ALL {
        let old = size.store_length() - 4 * size.tallies();
        assert_eq!(Station::from_store(&vec![0; old]).err(), Some(Refusal::Length));
    }
}

#[test]
fn kept_stores_go_on_where_they_were() {
    let mut station = Station::fresh(Size::Small, 5, 3, 4).unwrap();
    run_to(&mut station, 9);
    let first = Message::Propose {
        view: 1,
        height: 1,
        name: FIRST,
        parent: GENESIS,
        mask: 0b111,
        author: 1,
    };
    station.step(&first.encode()).unwrap();
    let mut again = Station::from_store(station.store()).unwrap();
    assert_eq!(run_to(&mut again, 16), run_to(&mut station, 16));
    assert_eq!(again.store(), station.store());
    assert_eq!(again.log(), [FIRST]);
}

#[test]
fn other_bytes_are_no_store() {
    for size in Size::ALL {
        let station = Station::fresh(size, 3, 2, 2).unwrap();
        let bytes = station.store();
        assert_eq!(Station::from_store(&bytes[1..]).err(), Some(Refusal::Length));
        let mut damaged = bytes.to_vec();
        damaged[4] = 4;
        assert_eq!(Station::from_store(&damaged).err(), Some(Refusal::Store));
        damaged.fill(0);
        assert_eq!(Station::from_store(&damaged).err(), Some(Refusal::Store));
    }
}

/// The calls on slices answer wrong lengths, and leave all as it was.
#[test]
fn lengths_are_looked_at_first() {
    for size in Size::ALL {
        let mut out = vec![0xa5; size.out_length()];
        let mut store = vec![0x5a; size.store_length()];
        let one = 1 << 32;
        assert_eq!(station::ffi::fresh(&mut store[1..], 3, 2, 0), one);
        assert_eq!(station::ffi::tick(&mut store, &mut out[1..]), one);
        assert_eq!(station::ffi::step(&mut [], &[], &mut out), one);
        assert_eq!(station::ffi::offer(&mut store, &[7; 31], &mut out), one);
        assert_eq!(station::ffi::certified(&store[1..], 1, 1, &[7; 32]), one);
        assert_eq!(station::ffi::certified(&store, 1, 1, &[7; 31]), one);
        assert!(store.iter().all(|&byte| byte == 0x5a) && out.iter().all(|&byte| byte == 0xa5));
    }
}
