//! 01's "Examples on the bench", in their order: n=3, D=2. Of those at 33 and 129 the like with the
//! large limits beside them: 02's "257 and 513".

use crate::common::*;
use second::Limits;

/// The propose of height 1 in view 1 that the examples use.
fn first() -> Bytes {
    propose(1, 1, name(1), ZERO, 0b110, 1)
}

#[test]
fn silence_is_blamed_at_tick_14() {
    let mut bench = Bench::new(3, 2, 2);
    bench.quiet_to(13);
    let whole = [
        0x10, 0x00, 0x0f, 0x01, 0x00, 0x01, 0x04, 0x02, 0x00, 0x04, 0x00, 0x00, 0x00, 0x01, 0x08,
        0x00, 0x01, 0x02,
    ];
    assert_eq!(bench.tick(), whole);
    assert_eq!(bench.station.clock(), 14);
}

#[test]
fn the_leader_makes_a_new_view_at_tick_5() {
    let mut bench = Bench::new(3, 2, 1);
    bench.quiet_to(4);
    let written = bench.tick();
    assert_eq!(written.len(), 132);
    assert_eq!(written, to_all(&[new_view(1, 0, ZERO, 0, 0, 1), vote(1, 0, ZERO, 1)]));
}

#[test]
fn a_propose_at_7_commits_at_12() {
    let mut bench = Bench::new(3, 2, 2);
    bench.quiet_to(7);
    let written = bench.step(&first());
    assert_eq!(written.len(), 160);
    assert_eq!(written, to_all(&[first(), vote(1, 1, name(1), 2)]));
    bench.quiet_to(11);
    let written = bench.tick();
    assert_eq!(written.len(), 39);
    assert_eq!(written, committed(1, name(1)));
    assert_eq!(bench.log(), [name(1)]);
    // "each reported once"
    bench.quiet_to(17);
}

#[test]
fn a_conflict_at_11_leaves_no_commit_at_12() {
    let mut bench = Bench::new(3, 2, 2);
    bench.quiet_to(7);
    bench.step(&first());
    bench.quiet_to(11);
    let other = propose(1, 1, name(2), ZERO, 0b011, 1);
    let written = bench.step(&other);
    assert_eq!(written.len(), 200);
    assert_eq!(written, to_all(&[first(), other]));
    assert_eq!(bench.tick(), []);
    assert!(bench.log().is_empty());
}

#[test]
fn a_quit_at_20_enters_at_23() {
    let mut bench = Bench::new(3, 2, 0);
    bench.run_to(20);
    assert_eq!(bench.step(&blame_set(1, 0b110)), to_all(&[blame_set(1, 0b111)]));
    bench.quiet_to(22);
    assert_eq!(bench.station.view(), 1);
    let written = bench.tick();
    assert_eq!(written, to_one(2, &status(0, ZERO, 0, 0)));
    assert_eq!((bench.station.view(), bench.station.entry()), (2, 23));
}

#[test]
fn the_new_leader_enters_without_a_status() {
    let mut bench = Bench::new(3, 2, 2);
    bench.run_to(20);
    bench.step(&blame_set(1, 0b011));
    bench.quiet_to(23);
    assert_eq!((bench.station.view(), bench.station.entry()), (2, 23));
}

#[test]
fn one_propose_vote_puts_the_blame_off_to_18() {
    let mut bench = Bench::new(3, 2, 2);
    bench.step(&first());
    bench.quiet_to(4);
    assert_eq!(bench.tick(), committed(1, name(1)));
    bench.quiet_to(17);
    assert_eq!(bench.tick(), to_all(&[blame(1, 2)]));
}

#[test]
fn settings() {
    let fresh = |n, d, own| second::Station::fresh(Limits::SMALL, n, d, own).err().unwrap_or(0);
    assert_eq!(fresh(4, 2, 0), 10);
    assert_eq!(fresh(3, 0, 0), 10);
    assert_eq!(fresh(3, 10_001, 0), 10);
    assert_eq!(fresh(15, 10_000, 14), 0);
}

#[test]
fn views_and_masks_out_of_range_are_not_allowed() {
    for (limits, over) in [(Limits::SMALL, 33), (Limits::LARGE, 257)] {
        let mut bench = Bench::of(limits, 3, 2, 2);
        bench.refused_step(5, &blame(over, 1));
        bench.refused_step(11, &blame(over - 1, 1));
        bench.refused_step(5, &blame(0, 1));
        bench.refused_step(5, &blame_set(1, 0b1011));
        bench.refused_step(5, &propose(1, 1, name(1), ZERO, 0b010, 1));
        bench.refused_step(5, &status(1, name(1), 1, 0b100));
    }
}

#[test]
fn a_new_view_ranking_below_the_lock_is_stored_without_a_vote() {
    let mut bench = Bench::new(3, 2, 1);
    bench.step(&status(3, name(3), 1, 0b011));
    bench.step(&status(2, name(2), 1, 0b011));
    bench.step(&blame_set(1, 0b101));
    assert_eq!(bench.run_to(3), to_one(2, &status(3, name(3), 1, 0b011)));
    assert_eq!(bench.station.lock().rank(), (1, 3));
    assert_eq!(bench.step(&new_view(2, 2, name(2), 1, 0b011, 2)), []);
    assert_eq!(bench.station.statements().len(), 1);
    assert_eq!(bench.mask(2, 2, name(2)), Some(0));
}

#[test]
fn a_byte_short_or_long_is_unreadable() {
    let messages = [
        new_view(1, 0, ZERO, 0, 0, 1),
        first(),
        vote(1, 1, name(1), 0),
        blame(1, 0),
        blame_set(1, 0b011),
        status(0, ZERO, 0, 0),
    ];
    for message in messages {
        let mut bench = Bench::new(3, 2, 2);
        bench.refused_step(4, &message[..message.len() - 1]);
        bench.refused_step(4, &[&message[..], &[0]].concat());
        bench.step(&message);
    }
}

#[test]
fn the_129th_or_513th_new_statement_is_refused_and_a_repeat_is_not() {
    let link = |height: u16| {
        let parent = if height == 1 { ZERO } else { name(height - 1) };
        propose(1, u32::from(height), name(height), parent, 0b011, 1)
    };
    for (limits, over) in [(Limits::SMALL, 129), (Limits::LARGE, 513)] {
        let mut bench = Bench::of(limits, 3, 2, 2);
        for height in 1..over {
            assert_eq!(bench.step(&link(height)).len(), 160);
        }
        assert_eq!(bench.step(&link(1)), []);
        bench.refused_step(6, &link(over));
        bench.refused_step(3, &link(1));
    }
}
