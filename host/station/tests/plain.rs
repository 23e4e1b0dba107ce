//! The typed face of the plain engine: each refusal that it can give, with the list that it leaves, and
//! kept lists. What it answers besides is compared with both programs by `compare`.

use station::{Effect, GENESIS, Input, Message, Name, Plain, Refusal, SLOT, Size};

/// The bytes of a list's head.
const HEAD: usize = 16;

fn name(number: u32) -> Name {
    std::array::from_fn(|place| number.to_be_bytes()[place % 4])
}

fn propose(view: u32, height: u32, name: Name, parent: Name, author: u8) -> Vec<u8> {
    Message::Propose { view, height, name, parent, mask: 0b110, author }.encode()
}

fn vote(height: u32, author: u8) -> Vec<u8> {
    Message::Vote { view: 1, height, name: name(height), author }.encode()
}

/// Station `own` of three with D = 1.
fn of(own: u64) -> Plain {
    Plain::fresh(200, 3, 1, own).unwrap()
}

fn ticks(plain: &mut Plain, count: usize) -> Vec<Effect> {
    (0..count).flat_map(|_| plain.tick().unwrap().collect::<Vec<_>>()).collect()
}

/// The answer is this refusal, and the list has so many inputs more.
fn refused(plain: &mut Plain, input: Input, refusal: Refusal, more: usize) {
    let before = plain.list().to_vec();
    let inputs = plain.inputs().count();
    assert_eq!(plain.take(input).err(), Some(refusal));
    assert_eq!(plain.inputs().count(), inputs + more, "{refusal}");
    assert!(more > 0 || plain.list() == before, "{refusal} changes the list");
    let stopped = plain.take(Input::Message(&[])).err();
    let wanted = if refusal.is_stop() { Refusal::Stopped } else { Refusal::Unreadable };
    assert_eq!(stopped, Some(wanted));
}

#[test]
fn number_1_is_a_list_of_no_good_length() {
    for inputs in [0, Plain::MOST_INPUTS + 1, usize::MAX] {
        assert_eq!(Plain::fresh(inputs, 3, 2, 0).err(), Some(Refusal::Length));
    }
    let list = of(0).list().to_vec();
    for length in [0, HEAD, list.len() - 1] {
        assert_eq!(Plain::from_list(&list[..length]).err(), Some(Refusal::Length));
    }
    let (mut list, mut out) = (list, vec![0; Size::Small.out_length()]);
    let one = 1 << 32;
    assert_eq!(station::ffi::plain_offer(&mut list, &[7; 31], &mut out), one);
    assert_eq!(station::ffi::plain_tick(&mut list, &mut out[1..]), one);
    assert_eq!(station::ffi::plain_log(&list, &mut out[1..]), one);
}

#[test]
fn number_2_is_a_list_that_is_none() {
    let mut plain = of(0);
    ticks(&mut plain, 2);
    let damaged = |place: usize| {
        let mut list = plain.list().to_vec();
        list[place] ^= 1;
        Plain::from_list(&list).err()
    };
    // the settings, the number of records, a zero of the head, a record's number, behind the last record
    for place in [0, 7, 8, HEAD + 6, HEAD + 2 * SLOT] {
        assert_eq!(damaged(place), Some(Refusal::Store), "{place}");
    }
    // an offer that was not taken where it stands
    let mut list = plain.list().to_vec();
    list[HEAD + SLOT..HEAD + 2 * SLOT].fill(0);
    let slot = &mut list[HEAD + SLOT..HEAD + 2 * SLOT];
    assert_eq!(station::ffi::journal_put(slot, 1, 2, &[7; 32]), SLOT as u64);
    assert_eq!(Plain::from_list(&list).err(), Some(Refusal::Store));
}

#[test]
fn numbers_4_5_11_and_9_change_nothing() {
    let mut plain = of(2);
    let blame = |view, author| Message::Blame { view, author }.encode();
    refused(&mut plain, Input::Message(&[1, 2, 3]), Refusal::Unreadable, 0);
    refused(&mut plain, Input::Message(&blame(1, 3)), Refusal::NotAllowed, 0);
    refused(&mut plain, Input::Message(&blame(3, 1)), Refusal::Ahead, 0);
    refused(&mut plain, Input::Offer(&[1; 32]), Refusal::NotTaken, 0);
}

/// One statement too many is kept, and the last that the list takes.
#[test]
fn number_6_stops_it_and_3_is_what_follows() {
    let mut plain = of(2);
    let room = Size::Small.statements() as u32;
    for height in 1..=room {
        plain.step(&propose(1, height, name(height), name(height - 1), 1)).unwrap();
    }
    let last = propose(1, room + 1, name(room + 1), name(room), 1);
    refused(&mut plain, Input::Message(&last), Refusal::Full, 1);
    refused(&mut plain, Input::Tick, Refusal::Stopped, 0);
    refused(&mut plain, Input::Offer(&[1; 32]), Refusal::Stopped, 0);
    assert_eq!(Plain::from_list(plain.list()).map(|again| again.log()), Ok(vec![]));
}

/// Height 1 is committed in view 1, and another in view 2.
#[test]
fn number_7_stops_it_with_its_log() {
    let mut plain = of(0);
    plain.step(&propose(1, 1, name(1), GENESIS, 1)).unwrap();
    assert_eq!(ticks(&mut plain, 3), [Effect::Committed { height: 1, name: name(1) }]);
    plain.step(&propose(2, 1, name(2), GENESIS, 2)).unwrap();
    plain.step(&Message::BlameSet { view: 1, mask: 0b110 }.encode()).unwrap();
    ticks(&mut plain, 4);
    refused(&mut plain, Input::Tick, Refusal::Split, 1);
    assert_eq!(plain.log(), [name(1)]);
}

#[test]
fn number_10_is_bad_settings() {
    for (n, d, own) in [(4, 2, 0), (3, 0, 0), (3, 10_001, 0), (3, 2, 3), (17, 2, 0)] {
        assert_eq!(Plain::fresh(1, n, d, own).err(), Some(Refusal::Settings));
    }
}

#[test]
fn number_12_is_the_seventeenth_invented_name() {
    let mut plain = of(2);
    for height in 1..=16 {
        plain.step(&vote(height, 0)).unwrap();
    }
    refused(&mut plain, Input::Message(&vote(17, 0)), Refusal::UsedUp, 0);
    plain.step(&vote(17, 1)).unwrap();
}

/// A full list still answers what would not be kept with its own number.
#[test]
fn number_13_is_a_list_without_room_and_comes_last() {
    let mut plain = Plain::fresh(2, 3, 1, 2).unwrap();
    ticks(&mut plain, 2);
    let blame = Message::Blame { view: 1, author: 0 }.encode();
    refused(&mut plain, Input::Tick, Refusal::Journal, 0);
    refused(&mut plain, Input::Message(&blame), Refusal::Journal, 0);
    refused(&mut plain, Input::Message(&blame[1..]), Refusal::Unreadable, 0);
    refused(&mut plain, Input::Offer(&[1; 32]), Refusal::NotTaken, 0);
    assert!(plain.inputs().eq([Input::Tick, Input::Tick]));
}

#[test]
fn kept_lists_go_on_where_they_were() {
    let mut plain = of(2);
    plain.step(&propose(1, 1, name(1), GENESIS, 1)).unwrap();
    let mut again = Plain::from_list(plain.list()).unwrap();
    assert_eq!(ticks(&mut again, 3), ticks(&mut plain, 3));
    assert_eq!((again.list(), again.log()), (plain.list(), vec![name(1)]));
}
