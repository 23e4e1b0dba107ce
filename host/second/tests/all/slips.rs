//! 01's "Slips we have seen proposed": a station that makes one fails here.

use crate::common::*;

/// "Firing the commit at exactly 2D: a conflict due then may come after."
#[test]
fn a_conflict_due_at_2d_comes_before_the_commit() {
    let mut bench = Bench::new(3, 2, 0);
    bench.step(&propose(1, 1, name(1), ZERO, 0b110, 1));
    bench.quiet_to(4);
    bench.step(&propose(1, 1, name(2), ZERO, 0b110, 1));
    // The quit was at 4, so the entry is at 7.
    bench.quiet_to(6);
    assert!(bench.log().is_empty());
}

/// "Dropping messages of a view not yet entered."
#[test]
fn messages_of_a_later_view_are_kept() {
    let mut bench = Bench::new(3, 1, 0);
    let early = propose(2, 1, name(1), ZERO, 0b110, 2);
    assert_eq!(bench.step(&early), []);
    bench.step(&blame_set(1, 0b110));
    bench.quiet_to(1);
    // The propose came with a certificate of genesis in its own view; none is of an earlier one.
    let voted = to_all(&[early, vote(2, 1, name(1), 0)]);
    assert_eq!(bench.tick(), [to_one(2, &status(0, ZERO, 0, 0)), voted].concat());
    assert_eq!(bench.step(&blame(3, 1)), []);
    assert_eq!(bench.step(&blame(3, 2)), []);
    bench.step(&blame_set(2, 0b110));
    bench.quiet_to(3);
    // In view 3, which it leads, the blames of before are a set: the station quits as it enters.
    assert_eq!(bench.tick(), to_all(&[blame_set(3, 0b110)]));
    assert_eq!(bench.station.phase(), second::Phase::Waiting { quit: 4 });
}

/// "Counting a voter twice, by adding instead of joining masks."
#[test]
fn a_voter_counts_once() {
    let mut bench = Bench::new(5, 1, 1);
    bench.run_to(3);
    for _ in 0..3 {
        bench.step(&vote(1, 0, ZERO, 0));
        bench.refused(9, Call::Offer(&name(1)));
    }
    bench.step(&vote(1, 0, ZERO, 1));
    bench.refused(9, Call::Offer(&name(1)));
    bench.step(&vote(1, 0, ZERO, 4));
    assert_eq!(bench.mask(1, 0, ZERO), Some(0b10011));
    let made = propose(1, 1, name(1), ZERO, 0b10011, 1);
    assert_eq!(bench.offer(name(1)), to_all(&[made, vote(1, 1, name(1), 1)]));
}

/// The same of blames.
#[test]
fn a_blamer_counts_once() {
    let mut bench = Bench::new(5, 1, 1);
    for _ in 0..3 {
        assert_eq!(bench.step(&blame(1, 3)), []);
    }
    assert_eq!(bench.step(&blame(1, 4)), []);
    assert_eq!(bench.step(&blame(1, 0)), to_all(&[blame_set(1, 0b11001)]));
}

/// "Ranking by height before view."
#[test]
fn a_later_view_ranks_above_a_greater_height() {
    let mut bench = Bench::new(3, 1, 1);
    bench.step(&status(9, name(9), 1, 0b011));
    bench.step(&status(1, name(1), 2, 0b101));
    bench.step(&blame_set(1, 0b101));
    assert_eq!(bench.run_to(2), to_one(2, &status(9, name(9), 1, 0b011)));
    bench.step(&blame_set(2, 0b101));
    assert_eq!(bench.run_to(4), to_one(0, &status(1, name(1), 2, 0b101)));
}

/// "Entering at once after quitting, without the D wait."
#[test]
fn an_entry_waits_for_d_and_a_tick() {
    let mut bench = Bench::new(3, 10, 1);
    bench.run_to(3);
    bench.step(&blame_set(1, 0b101));
    bench.quiet_to(13);
    assert_eq!(bench.station.view(), 1);
    assert_ne!(bench.tick(), []);
    assert_eq!((bench.station.view(), bench.station.entry()), (2, 14));
}

/// "Ceasing to gather votes once quit: the lock may miss a certificate."
#[test]
fn votes_are_gathered_after_the_quit() {
    let mut bench = Bench::new(3, 1, 1);
    bench.step(&vote(1, 1, name(1), 0));
    bench.step(&blame_set(1, 0b101));
    assert_eq!(bench.step(&vote(1, 1, name(1), 2)), []);
    assert_eq!(bench.run_to(2), to_one(2, &status(1, name(1), 1, 0b101)));
    assert_eq!(bench.station.lock().rank(), (1, 1));
}
