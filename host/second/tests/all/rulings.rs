//! How 01 is read where it can be read two ways, as far as it shows in what a station writes: ruling 3
//! is number 3 of docs/DECISIONS.md. Then the order of things that 01 itself gives.

use crate::common::*;
use second::Phase;

/// Ruling 2: what is sent of a stored statement has the mask as first received.
#[test]
fn a_stored_statement_is_sent_with_its_first_mask() {
    let mut bench = Bench::new(3, 1, 0);
    let first = propose(2, 2, name(2), name(1), 0b110, 2);
    bench.step(&first);
    bench.step(&propose(2, 2, name(2), name(1), 0b011, 2));
    assert_eq!(bench.station.statements().len(), 1);
    assert_eq!(bench.mask(2, 1, name(1)), Some(0b111));
    bench.step(&blame_set(1, 0b110));
    bench.quiet_to(1);
    let voted = to_all(&[first.clone(), vote(2, 2, name(2), 0)]);
    assert_eq!(bench.tick(), [to_one(2, &status(0, ZERO, 0, 0)), voted].concat());
    let other = propose(2, 2, name(3), name(1), 0b101, 2);
    assert_eq!(bench.step(&other), to_all(&[first, other]));
}

/// Ruling 3: equal rank with another name is voted for.
#[test]
fn a_new_view_at_the_locks_rank_is_voted_for() {
    let mut bench = Bench::new(3, 1, 1);
    bench.step(&status(1, name(1), 1, 0b011));
    bench.step(&blame_set(1, 0b101));
    bench.run_to(2);
    let equal = new_view(2, 1, name(2), 1, 0b011, 2);
    assert_eq!(bench.step(&equal), to_all(&[equal.clone(), vote(2, 1, name(2), 1)]));
}

/// "'Highest' breaks ties by the smaller name in byte order", whichever came first.
#[test]
fn the_smaller_name_is_the_higher() {
    for order in [[1, 2], [2, 1]] {
        let mut bench = Bench::new(3, 1, 1);
        for number in order {
            bench.step(&status(1, name(number), 1, 0b011));
        }
        bench.step(&blame_set(1, 0b101));
        assert_eq!(bench.run_to(2), to_one(2, &status(1, name(1), 1, 0b011)));
    }
}

/// Ruling 4: a chain starts with the voted propose's own record and parent.
#[test]
fn a_chain_starts_with_its_own_record() {
    let mut bench = Bench::new(3, 1, 0);
    bench.step(&propose(2, 1, name(1), ZERO, 0b110, 2));
    // Of one name: the parent of the first is missing, that of the second is there, of another view.
    bench.step(&propose(1, 2, name(2), name(9), 0b110, 1));
    assert_eq!(bench.step(&propose(1, 2, name(2), name(1), 0b110, 1)).len(), 160);
    // From the parent on it is the first stored that counts.
    bench.step(&propose(1, 3, name(3), name(2), 0b110, 1));
    bench.quiet_to(2);
    assert_eq!(bench.tick(), [committed(1, name(1)), committed(2, name(2))].concat());
    bench.quiet_to(4);
    // The missing parent comes, in another view, and isn't what the log has.
    bench.step(&propose(2, 1, name(9), ZERO, 0b110, 2));
    bench.refused(7, Call::Tick);
    assert_eq!(bench.log(), [name(1), name(2)]);
}

/// The ancestor that was missing comes in any view, and the block is "tried at the next tick".
#[test]
fn a_block_passed_over_is_tried_again() {
    let mut bench = Bench::new(3, 1, 0);
    bench.step(&propose(1, 3, name(3), name(2), 0b110, 1));
    bench.quiet_to(4);
    bench.step(&propose(2, 1, name(1), ZERO, 0b110, 2));
    bench.quiet_to(5);
    bench.step(&propose(2, 2, name(2), name(1), 0b110, 2));
    let commits = [committed(1, name(1)), committed(2, name(2)), committed(3, name(3))];
    assert_eq!(bench.tick(), commits.concat());
    bench.quiet_to(8);
}

/// A parent of the right name must be "one height lower".
#[test]
fn a_parent_of_another_height_is_not_stored() {
    let mut bench = Bench::new(3, 1, 0);
    bench.step(&propose(1, 2, name(2), name(1), 0b110, 1));
    bench.step(&propose(2, 2, name(1), name(8), 0b110, 2));
    bench.step(&propose(2, 1, name(8), ZERO, 0b110, 2));
    bench.quiet_to(7);
    // Nor is a new-view of that block a propose of it.
    bench.step(&new_view(2, 1, name(1), 1, 0b110, 2));
    assert_eq!(bench.tick(), []);
}

/// A missing ancestor comes before a difference: the block is passed over.
#[test]
fn a_chain_that_differs_but_isnt_whole_is_passed_over() {
    let mut bench = Bench::new(3, 1, 0);
    for (height, parent) in [(1, ZERO), (2, name(1))] {
        bench.step(&propose(1, height, name(height as u16), parent, 0b110, 1));
    }
    bench.run_to(3);
    assert_eq!(bench.log(), [name(1), name(2)]);
    bench.step(&propose(2, 2, name(12), name(11), 0b110, 2));
    bench.step(&blame_set(1, 0b110));
    bench.run_to(8);
    bench.quiet_to(9);
    bench.step(&propose(2, 1, name(11), ZERO, 0b110, 2));
    bench.refused(7, Call::Tick);
}

/// Commits of a tick go "by ascending height, then by place".
#[test]
fn commits_go_by_height() {
    let mut bench = Bench::new(3, 1, 0);
    bench.step(&propose(1, 2, name(2), name(1), 0b110, 1));
    bench.step(&propose(1, 1, name(1), ZERO, 0b110, 1));
    bench.quiet_to(2);
    assert_eq!(bench.tick(), [committed(1, name(1)), committed(2, name(2))].concat());
}

/// Each block waits for its own vote, "not yet logged ancestors come first".
#[test]
fn ancestors_come_with_the_first_descendant_due() {
    let mut bench = Bench::new(3, 1, 0);
    bench.step(&propose(1, 2, name(2), name(1), 0b110, 1));
    bench.quiet_to(1);
    bench.step(&propose(1, 1, name(1), ZERO, 0b110, 1));
    bench.quiet_to(2);
    // The block of height 1 is due at 4; its descendant brings it at 3.
    assert_eq!(bench.tick(), [committed(1, name(1)), committed(2, name(2))].concat());
    bench.quiet_to(4);
}

/// Ruling 5: the own blame goes out only while the own bit is clear, whoever set it.
#[test]
fn a_blame_that_came_back_isnt_sent_again() {
    let mut bench = Bench::new(3, 1, 0);
    assert_eq!(bench.step(&blame(1, 0)), []);
    bench.quiet_to(100);
}

/// The own blame may make the set full: both are sent, and the station quits.
#[test]
fn the_own_blame_may_complete_the_set() {
    let mut bench = Bench::new(3, 1, 0);
    bench.step(&blame(1, 1));
    bench.quiet_to(7);
    assert_eq!(bench.tick(), to_all(&[blame(1, 0), blame_set(1, 0b011)]));
    assert_eq!(bench.station.phase(), Phase::Waiting { quit: 8 });
}

/// Ruling 6: a leader whose own new-view is stored writes nothing; with another stored it quits.
#[test]
fn a_leader_meets_a_new_view_of_its_own() {
    let mut bench = Bench::new(3, 1, 1);
    assert_eq!(bench.step(&new_view(1, 0, ZERO, 0, 0, 1)).len(), 132);
    bench.quiet_to(7);

    let mut bench = Bench::new(3, 1, 2);
    let other = new_view(2, 1, name(1), 1, 0b011, 2);
    bench.step(&other);
    bench.step(&status(2, name(2), 1, 0b011));
    bench.step(&blame_set(1, 0b011));
    bench.quiet_to(4);
    let own = new_view(2, 2, name(2), 1, 0b011, 2);
    assert_eq!(bench.tick(), to_all(&[other, own]));
    assert_eq!(bench.station.phase(), Phase::Waiting { quit: 5 });
}

/// The leader's new-view has the highest certificate's mask, as the tally then has it.
#[test]
fn a_leader_uses_certificates_that_came_after_its_entry() {
    let mut bench = Bench::new(3, 1, 2);
    bench.step(&blame_set(1, 0b011));
    bench.quiet_to(2);
    bench.step(&vote(1, 4, name(4), 0));
    bench.step(&vote(1, 4, name(4), 1));
    bench.step(&vote(1, 5, name(5), 1));
    // A certificate of the view itself isn't one of an earlier view.
    bench.step(&status(6, name(6), 2, 0b011));
    bench.quiet_to(4);
    let made = new_view(2, 4, name(4), 1, 0b011, 2);
    assert_eq!(bench.tick(), to_all(&[made, vote(2, 4, name(4), 2)]));
    // It is made "at exactly entry+2D+1": a higher one that comes too late makes no other.
    bench.step(&status(5, name(5), 1, 0b011));
    bench.quiet_to(9);
}

/// Ruling 7, and "if both causes hold, the set only".
#[test]
fn an_entry_may_quit_at_once() {
    let pair = [propose(2, 1, name(1), ZERO, 0b110, 2), propose(2, 1, name(2), ZERO, 0b110, 2)];
    let enter = |blamed: bool| {
        let mut bench = Bench::new(3, 1, 0);
        pair.iter().for_each(|statement| assert_eq!(bench.step(statement), []));
        if blamed {
            bench.step(&blame_set(2, 0b110));
        }
        bench.step(&blame_set(1, 0b110));
        bench.quiet_to(1);
        let written = bench.tick();
        assert_eq!(bench.station.phase(), Phase::Waiting { quit: 2 });
        assert_eq!((bench.station.view(), bench.station.entry()), (2, 2));
        written
    };
    let status = to_one(2, &status(0, ZERO, 0, 0));
    assert_eq!(enter(false), [status.clone(), to_all(&pair)].concat());
    assert_eq!(enter(true), [status, to_all(&[blame_set(2, 0b110)])].concat());
}

/// The pair of an entry: "least place of the earlier, then of the later".
#[test]
fn the_pair_of_an_entry_is_the_first_of_all() {
    let mut bench = Bench::new(3, 1, 2);
    let at = |height, number: u16| propose(2, height, name(number), name(99), 0b110, 2);
    let stored = [at(5, 1), at(3, 2), at(3, 3), at(5, 4), at(5, 5)];
    stored.iter().for_each(|statement| assert_eq!(bench.step(statement), []));
    bench.step(&blame_set(1, 0b011));
    bench.quiet_to(1);
    assert_eq!(bench.tick(), to_all(&[at(5, 1), at(5, 4)]));
}

/// A new statement quits on "the earliest stored conflicting one".
#[test]
fn a_new_view_meets_the_earliest_propose_it_conflicts_with() {
    let mut bench = Bench::new(3, 1, 0);
    let at = |height, number: u16, parent| propose(1, height, name(number), parent, 0b110, 1);
    bench.step(&at(2, 2, name(1)));
    bench.step(&at(1, 1, ZERO));
    // A new-view of height 0 is below both.
    let low = new_view(1, 0, ZERO, 0, 0, 1);
    assert_eq!(bench.step(&low), to_all(&[low.clone(), vote(1, 0, ZERO, 0)]));

    let mut bench = Bench::new(3, 1, 0);
    let at =
        |height: u32| propose(2, height, name(height as u16), name(height as u16 - 1), 0b110, 2);
    bench.step(&blame_set(1, 0b110));
    bench.run_to(2);
    bench.step(&at(5));
    bench.step(&at(3));
    bench.step(&at(2));
    let high = new_view(2, 3, name(7), 1, 0b110, 2);
    assert_eq!(bench.step(&high), to_all(&[at(3), high]));
}

/// "one is a new-view and the other a propose of no greater height": whichever came first.
#[test]
fn a_propose_conflicts_with_a_new_view_of_its_height() {
    let known = new_view(2, 3, name(3), 1, 0b110, 2);
    let at = |height, number: u16| propose(2, height, name(number), name(3), 0b110, 2);
    for (height, conflicts) in [(2, true), (3, true), (4, false)] {
        let mut bench = Bench::new(3, 1, 0);
        bench.step(&blame_set(1, 0b110));
        bench.run_to(2);
        assert_eq!(bench.step(&known).len(), 132);
        let last = if conflicts { known.clone() } else { vote(2, height, name(7), 0) };
        let mut sent = [at(height, 7), last];
        if conflicts {
            sent.reverse();
        }
        assert_eq!(bench.step(&at(height, 7)), to_all(&sent));
    }
}

/// 02, request 4: "two statements of one view at adjacent heights, the upper a propose whose parent is
/// not the lower's name", whichever came first, and at an entry; not two heights apart, and not of
/// two views.
#[test]
fn a_child_with_the_wrong_parent_conflicts() {
    let child = |height, parent: u16| propose(2, height, name(8), name(parent), 0b110, 2);
    let lower = [new_view(2, 3, name(3), 1, 0b110, 2), propose(2, 3, name(3), name(2), 0b110, 2)];
    let other_view = propose(3, 4, name(8), name(7), 0b110, 0);
    for known in lower {
        let cases = [
            (child(4, 7), true),
            (child(4, 3), false),
            (child(5, 7), false),
            (other_view.clone(), false),
        ];
        for (upper, conflicts) in cases {
            for [first, then] in [[&known, &upper], [&upper, &known]] {
                let mut bench = Bench::new(3, 1, 0);
                bench.step(&blame_set(1, 0b110));
                bench.run_to(2);
                bench.step(first);
                let pair = to_all(&[first.clone(), then.clone()]);
                assert_eq!(bench.step(then) == pair, conflicts, "{first:?} {then:?}");

                // before entry a statement of view 3 would be too far ahead
                if upper == other_view {
                    continue;
                }
                let mut bench = Bench::new(3, 1, 0);
                assert_eq!(bench.step(first), []);
                assert_eq!(bench.step(then), []);
                bench.step(&blame_set(1, 0b110));
                bench.run_to(1);
                assert_eq!(bench.tick().ends_with(&pair), conflicts, "{first:?} {then:?}");
            }
        }
    }
}

/// On entry: "new-view first, then by height, then by place".
#[test]
fn an_entry_votes_new_view_first_then_by_height() {
    let mut bench = Bench::new(3, 1, 2);
    let at = |height, parent: u16| propose(2, height, name(height as u16), name(parent), 0b110, 2);
    let new_view = new_view(2, 0, ZERO, 1, 0b110, 2);
    let stored = [at(4, 3), at(2, 1), at(3, 2), new_view.clone(), at(2, 8)];
    stored.iter().for_each(|statement| assert_eq!(bench.step(statement), []));
    bench.step(&blame_set(1, 0b011));
    bench.quiet_to(1);
    let voted = |height: u32| vote(2, height, name(height as u16), 2);
    let order = [
        [new_view, vote(2, 0, ZERO, 2)],
        [at(2, 1), voted(2)],
        [at(2, 8), voted(2)],
        [at(3, 2), voted(3)],
        [at(4, 3), voted(4)],
    ];
    assert_eq!(bench.tick(), to_all(&order.concat()));
}

/// Ruling 8: a name that only a tally has may be offered.
#[test]
fn a_name_of_a_tally_may_be_offered() {
    let mut bench = Bench::new(3, 1, 1);
    bench.run_to(3);
    bench.step(&vote(1, 0, ZERO, 0));
    bench.step(&vote(2, 4, name(1), 0));
    assert_eq!(bench.offer(name(1)).len(), 160);
}

/// Ruling 9: new-views of one block with another certificate view conflict.
#[test]
fn new_views_with_another_certificate_view_conflict() {
    let mut bench = Bench::new(3, 1, 2);
    bench.step(&blame_set(1, 0b011));
    bench.run_to(2);
    let (one, two) = (new_view(2, 0, ZERO, 0, 0, 2), new_view(2, 0, ZERO, 1, 0b011, 2));
    assert_eq!(bench.step(&one).len(), 132);
    assert_eq!(bench.step(&two), to_all(&[one, two]));
}

/// Ruling 12: of a stopped station, the length comes first, then 3. See refusals.
/// Ruling 13: a certified block's tally is opened first; a repeat opens nothing.
#[test]
fn the_certified_blocks_tally_is_opened_first() {
    let mut bench = Bench::new(3, 1, 0);
    let first = propose(1, 2, name(2), name(1), 0b110, 1);
    bench.step(&first);
    bench.step(&first);
    let tallies = bench.station.tallies();
    let opened: Vec<_> = tallies.iter().map(|tally| (tally.block.rank(), tally.mask)).collect();
    assert_eq!(opened, [((1, 1), 0b110), ((1, 2), 0b001)]);
}

/// "Otherwise they are only kept": a set that comes after the quit, or of another view.
#[test]
fn a_waiting_station_only_keeps_blames() {
    let mut bench = Bench::new(3, 2, 0);
    bench.step(&blame_set(1, 0b110));
    bench.quiet_to(1);
    assert_eq!(bench.step(&blame(1, 0)), []);
    assert_eq!(bench.step(&blame_set(1, 0b011)), []);
    assert_eq!(bench.step(&blame_set(2, 0b011)), []);
    assert_eq!((bench.station.blames(1), bench.station.blames(2)), (0b111, 0b011));
    assert_eq!(bench.station.phase(), Phase::Waiting { quit: 0 });
}

/// "Quitting ends voting and commit timers of the view", and the next view counts its own votes.
#[test]
fn votes_of_the_view_before_are_over() {
    let mut bench = Bench::new(3, 1, 0);
    bench.step(&propose(1, 1, name(1), ZERO, 0b110, 1));
    bench.step(&blame_set(1, 0b110));
    bench.run_to(2);
    // Blamed at 6D+2 after the entry: no vote of this view puts it off, nothing of view 1 commits.
    bench.quiet_to(9);
    assert_eq!(bench.tick(), to_all(&[blame(2, 0)]));
    // The block of view 1 commits as an ancestor.
    bench.step(&propose(2, 2, name(2), name(1), 0b110, 2));
    bench.quiet_to(12);
    assert_eq!(bench.tick(), [committed(1, name(1)), committed(2, name(2))].concat());
}

/// Statements of a view that isn't the current one, or after the quit, are stored and no more.
#[test]
fn a_waiting_station_stores_without_a_vote() {
    let mut bench = Bench::new(3, 2, 0);
    bench.step(&blame_set(1, 0b110));
    assert_eq!(bench.step(&propose(1, 1, name(1), ZERO, 0b110, 1)), []);
    assert_eq!(bench.step(&propose(1, 1, name(2), ZERO, 0b110, 1)), []);
    assert_eq!(bench.station.statements().len(), 2);
    assert_eq!(bench.mask(1, 0, ZERO), Some(0b110));
    assert_eq!(bench.mask(1, 1, name(1)), Some(0));
}
