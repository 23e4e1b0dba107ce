//! "Sizes of a group": what happens at the last record, the last height and the last view, with the
//! limits of either row.

use crate::common::*;
use second::{Limits, Phase};

/// Opens tallies of the next view, by statuses, until there are so many.
fn fill_tallies(bench: &mut Bench, count: usize) {
    let view = bench.station.view() + 1;
    let mut number = 1000;
    while bench.station.tallies().len() < count {
        bench.step(&status(1, name(number), view, 0b011));
        number += 1;
    }
}

/// Stores proposes of the next view until there are so many.
fn fill_statements(bench: &mut Bench, count: usize) {
    let view = bench.station.view() + 1;
    let leader = (view % 3) as u8;
    let mut height = 1;
    while bench.station.statements().len() < count {
        let parent = if height == 1 { ZERO } else { name(1000 + height - 1) };
        bench.step(&propose(view, u32::from(height), name(1000 + height), parent, 0b011, leader));
        height += 1;
    }
}

#[test]
fn one_tally_too_many_is_refused_and_a_join_is_not() {
    for (limits, room) in [(Limits::SMALL, 512), (Limits::LARGE, 1024)] {
        let mut bench = Bench::of(limits, 3, 1, 0);
        fill_tallies(&mut bench, room);
        bench.step(&vote(2, 1, name(1000), 1));
        bench.step(&status(1, name(1000), 2, 0b110));
        bench.step(&status(0, ZERO, 0, 0));
        assert_eq!(bench.mask(2, 1, name(1000)), Some(0b111));
        bench.refused_step(6, &status(1, name(2), 2, 0b011));
    }
}

#[test]
fn a_statement_needs_its_missing_tallies() {
    for limits in ROWS {
        let room = limits.tallies;
        let needs_two = propose(1, 2, name(2), name(1), 0b110, 1);
        let mut bench = Bench::of(limits, 3, 1, 0);
        fill_tallies(&mut bench, room - 1);
        bench.refused_step(6, &needs_two);

        let mut bench = Bench::of(limits, 3, 1, 0);
        bench.step(&vote(1, 1, name(1), 1));
        fill_tallies(&mut bench, room - 1);
        assert_eq!(bench.step(&needs_two), to_all(&[needs_two.clone(), vote(1, 2, name(2), 0)]));

        // Both are there: none is needed. A new-view of genesis in view 0 needs its own alone.
        let mut bench = Bench::of(limits, 3, 1, 0);
        bench.step(&vote(1, 1, name(1), 1));
        bench.step(&vote(1, 2, name(2), 1));
        fill_tallies(&mut bench, room - 1);
        assert_eq!(bench.step(&needs_two).len(), 160);
        assert_eq!(bench.step(&new_view(1, 0, ZERO, 0, 0, 1)).len(), 132);
        assert_eq!(bench.station.tallies().len(), room);
    }
}

/// Ruling 11: "answers 6 even if it would have made the station quit".
#[test]
fn a_conflict_needs_its_records_too() {
    for limits in ROWS {
        let mut bench = Bench::of(limits, 3, 1, 0);
        bench.step(&propose(1, 1, name(1), ZERO, 0b110, 1));
        fill_tallies(&mut bench, limits.tallies);
        bench.refused_step(6, &propose(1, 1, name(2), ZERO, 0b110, 1));
    }
}

#[test]
fn an_offer_needs_a_statement_and_a_tally() {
    for limits in ROWS {
        let leader = || {
            let mut bench = Bench::of(limits, 3, 1, 1);
            bench.run_to(3);
            bench.step(&vote(1, 0, ZERO, 0));
            bench
        };
        let mut bench = leader();
        fill_tallies(&mut bench, limits.tallies);
        // 9 before 6.
        bench.refused(9, Call::Offer(&ZERO));
        bench.refused(6, Call::Offer(&name(1)));

        let mut bench = leader();
        bench.step(&vote(1, 1, name(1), 0));
        fill_tallies(&mut bench, limits.tallies);
        assert_eq!(bench.offer(name(1)).len(), 160);

        let mut bench = leader();
        fill_statements(&mut bench, limits.statements);
        bench.refused(6, Call::Offer(&name(1)));
    }
}

/// 6 on a tick "keeps the old clock and drops what the tick had worked out": here a commit.
#[test]
fn a_leaders_tick_needs_a_statement() {
    for limits in ROWS {
        let leader = |fill: fn(&mut Bench, usize), count| {
            let mut bench = Bench::of(limits, 3, 1, 2);
            bench.step(&propose(2, 1, name(1), ZERO, 0b011, 2));
            bench.step(&blame_set(1, 0b011));
            bench.run_to(2);
            fill(&mut bench, count);
            bench.quiet_to(4);
            bench
        };
        let mut bench = leader(fill_statements, limits.statements - 1);
        let made = to_all(&[new_view(2, 0, ZERO, 0, 0, 2), vote(2, 0, ZERO, 2)]);
        assert_eq!(bench.tick(), [committed(1, name(1)), made].concat());

        let mut bench = leader(fill_statements, limits.statements);
        bench.refused(6, Call::Tick);
        assert_eq!(bench.station.clock(), 4);
        assert!(bench.log().is_empty());

        // Its own tally is genesis's in view 2, which the propose has opened.
        let mut bench = leader(fill_tallies, limits.tallies);
        assert_eq!(bench.tick().len(), 39 + 132);
    }
}

#[test]
fn a_leaders_tick_needs_a_tally() {
    for limits in ROWS {
        let mut bench = Bench::of(limits, 3, 1, 1);
        fill_tallies(&mut bench, limits.tallies);
        bench.quiet_to(2);
        bench.refused(6, Call::Tick);
    }
}

#[test]
fn nothing_is_offered_above_the_last_height() {
    let leader = |height| {
        let mut bench = Bench::new(3, 1, 1);
        bench.step(&new_view(1, 0, ZERO, 0, 0, 1));
        bench.step(&propose(1, height, name(2), name(1), 0b101, 1));
        bench.step(&vote(1, height, name(2), 0));
        bench
    };
    let made = propose(1, 65_535, name(3), name(2), 0b011, 1);
    assert_eq!(leader(65_534).offer(name(3)), to_all(&[made, vote(1, 65_535, name(3), 1)]));
    leader(65_535).refused(9, Call::Offer(&name(3)));
}

#[test]
fn nothing_is_entered_after_the_last_view() {
    for (limits, last) in [(Limits::SMALL, 32), (Limits::LARGE, 256)] {
        let mut bench = Bench::of(limits, 3, 1, 0);
        for view in 1..=last {
            assert_eq!((bench.station.view(), bench.station.phase()), (view, Phase::InView));
            bench.step(&blame_set(view, 0b110));
            bench.run_to(2 * view);
        }
        let waiting = Phase::Waiting { quit: 2 * last - 2 };
        assert_eq!((bench.station.view(), bench.station.phase()), (last, waiting));
        bench.quiet_to(1000);
        // Votes and statements are still kept.
        bench.step(&propose(last, 1, name(1), ZERO, 0b110, (last % 3) as u8));
        assert_eq!(bench.station.statements().len(), 1);
    }
}

/// The longest chain there can be commits in one tick, and one entry votes for all of it: with the
/// status 20,542 or 81,982 bytes, the most that a call writes.
#[test]
fn the_most_that_a_tick_writes_fits_the_out_buffer() {
    for (limits, most) in [(Limits::SMALL, 20_542), (Limits::LARGE, 81_982)] {
        let room = limits.statements as u16;
        let mut bench = Bench::of(limits, 3, 1, 0);
        let link = |height: u16| {
            let parent = if height == 1 { ZERO } else { name(height - 1) };
            propose(2, u32::from(height), name(height), parent, 0b011, 2)
        };
        // Stored from the top down, voted for from the bottom up.
        for height in (1..=room).rev() {
            assert_eq!(bench.step(&link(height)), []);
        }
        bench.step(&blame_set(1, 0b110));
        bench.quiet_to(1);
        let mut expected = to_one(2, &status(0, ZERO, 0, 0));
        for height in 1..=room {
            expected.extend(to_all(&[link(height), vote(2, u32::from(height), name(height), 0)]));
        }
        assert_eq!((bench.tick(), expected.len()), (expected.clone(), most));
        bench.quiet_to(4);
        let commits = (1..=room).flat_map(|height| committed(u32::from(height), name(height)));
        assert_eq!(bench.tick(), commits.collect::<Bytes>());
        bench.quiet_to(20);
    }
}
