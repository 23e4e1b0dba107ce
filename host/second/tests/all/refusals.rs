//! "When the desk says no": each number, what it changes, and which comes first. 8 needs a clock at
//! its end and is tested beside the tick.

use crate::common::*;
use second::{Limits, Phase, Station};

/// A station of view 1 stopped by a split: height 1 committed in view 1, another in view 2.
fn split() -> Bench {
    let mut bench = Bench::new(3, 1, 0);
    bench.step(&propose(1, 1, name(1), ZERO, 0b110, 1));
    bench.quiet_to(2);
    assert_eq!(bench.tick(), committed(1, name(1)));
    bench.step(&propose(2, 1, name(2), ZERO, 0b110, 2));
    bench.step(&blame_set(1, 0b110));
    bench.run_to(7);
    bench.refused(7, Call::Tick);
    bench
}

#[test]
fn number_1_is_an_offered_name_of_another_length() {
    let mut bench = Bench::new(3, 1, 1);
    for length in [0, 1, 31, 33, 64] {
        bench.refused(1, Call::Offer(&vec![7; length]));
    }
    let mut stopped = split();
    stopped.refused(1, Call::Offer(&[7; 31]));
    stopped.refused(3, Call::Offer(&[7; 32]));
}

#[test]
fn number_3_comes_before_the_message_is_read() {
    let mut bench = split();
    bench.refused(3, Call::Tick);
    bench.refused_step(3, &blame(1, 1));
    bench.refused_step(3, &blame(0, 1));
    bench.refused_step(3, &[]);
}

#[test]
fn number_4_is_anything_but_the_exact_fields() {
    let mut bench = Bench::new(3, 2, 2);
    let whole = vote(1, 1, name(1), 0);
    bench.refused_step(4, &[]);
    for kind in [0, 7, 255] {
        let mut other = whole.clone();
        other[3] = kind;
        bench.refused_step(4, &other);
    }
    // Each tag and each length, one off.
    let mut start = 0;
    while start < whole.len() {
        for place in start..start + 3 {
            let mut other = whole.clone();
            other[place] ^= 1;
            bench.refused_step(4, &other);
        }
        start += 3 + usize::from(whole[start + 2]);
    }
    // Fields in another order, and 4 before 5.
    let blame = blame(99, 0);
    bench.refused_step(4, &[&blame[..4], &blame[11..], &blame[4..11]].concat());
    bench.refused_step(4, &blame[..14]);
    bench.refused_step(5, &blame);
}

/// Every sentence of the paragraph "Allowed", for n=5: f+1 is 3.
#[test]
fn number_5_is_every_sentence_of_allowed() {
    let mut bench = Bench::new(5, 1, 0);
    let high = 65_536;
    for message in [
        // Numbers within the limits, view at least 1.
        new_view(0, 0, ZERO, 0, 0, 0),
        new_view(33, 0, ZERO, 0, 0, 3),
        new_view(2, high, name(1), 1, 7, 2),
        propose(0, 1, name(1), ZERO, 7, 0),
        propose(33, 1, name(1), ZERO, 7, 3),
        propose(1, high, name(1), name(2), 7, 1),
        vote(0, 1, name(1), 0),
        vote(33, 1, name(1), 0),
        vote(1, high, name(1), 0),
        blame(0, 1),
        blame(33, 1),
        blame_set(0, 7),
        blame_set(33, 7),
        status(high, name(1), 1, 7),
        status(1, name(1), 33, 7),
        status(1, name(1), u32::MAX, 7),
        // Author below n, and the leader of the view for kinds 1 and 2.
        vote(1, 1, name(1), 5),
        blame(1, 5),
        blame(1, 255),
        new_view(1, 0, ZERO, 0, 0, 2),
        propose(1, 1, name(1), ZERO, 7, 0),
        propose(6, 1, name(1), ZERO, 7, 6),
        // No mask bit at n or above.
        blame_set(1, 0b100_111),
        status(1, name(1), 1, 0b1000_0000_0000_0111),
        propose(1, 1, name(1), ZERO, 0b100_111, 1),
        new_view(2, 1, name(1), 1, 0b100_111, 2),
        // Height 0 exactly when the name is all zero.
        new_view(2, 0, name(1), 1, 7, 2),
        new_view(2, 1, ZERO, 1, 7, 2),
        propose(1, 1, ZERO, ZERO, 7, 1),
        vote(1, 0, name(1), 0),
        vote(1, 1, ZERO, 0),
        status(0, name(1), 1, 7),
        status(1, ZERO, 1, 7),
        // Masks hold at least f+1 bits.
        blame_set(1, 0b11),
        blame_set(1, 0),
        status(1, name(1), 1, 0b11),
        status(0, ZERO, 1, 0),
        propose(1, 1, name(1), ZERO, 0b11, 1),
        propose(1, 1, name(1), ZERO, 0, 1),
        new_view(2, 1, name(1), 1, 0b11, 2),
        // A propose has height at least 1; its parent is all zero exactly at height 1.
        propose(1, 0, ZERO, ZERO, 7, 1),
        propose(1, 0, name(1), ZERO, 7, 1),
        propose(1, 0, ZERO, name(2), 7, 1),
        propose(1, 1, name(1), name(2), 7, 1),
        propose(1, 2, name(1), ZERO, 7, 1),
        // A new-view has certificate view below its view.
        new_view(2, 1, name(1), 2, 7, 2),
        new_view(2, 1, name(1), 3, 7, 2),
        // Certificate view 0 goes with height 0 and mask 0 only.
        new_view(2, 1, name(1), 0, 0, 2),
        new_view(2, 1, name(1), 0, 7, 2),
        new_view(2, 0, ZERO, 0, 7, 2),
        status(1, name(1), 0, 0),
        status(0, ZERO, 0, 7),
        status(0, name(1), 0, 0),
    ] {
        bench.refused_step(5, &message);
    }
}

/// The nearest allowed ones to those.
#[test]
fn messages_at_the_edge_are_allowed() {
    for limits in ROWS {
        let last = limits.views;
        let leader = (last % 5) as u8;
        // In the view before the last, so that none is too far ahead.
        let mut late = Bench::of(limits, 5, 1, 0);
        for view in 1..last - 1 {
            late.step(&blame_set(view, 0b11100));
            late.run_to(2 * view);
        }
        for message in [
            new_view(last, 65_535, name(1), last - 1, 7, leader),
            new_view(2, 0, ZERO, 1, 7, 2),
            new_view(2, 0, ZERO, 0, 0, 2),
            propose(last, 65_535, name(1), name(2), 0b11111, leader),
            propose(6, 1, name(1), ZERO, 7, 1),
            vote(last, 65_535, name(1), 4),
            vote(1, 0, ZERO, 0),
            blame(last, 4),
            blame_set(last, 0b11100),
            status(65_535, name(1), last, 7),
            status(0, ZERO, last, 7),
            status(0, ZERO, 0, 0),
        ] {
            Bench { station: late.station.clone() }.step(&message);
        }
    }
}

#[test]
fn number_6_stops_the_station() {
    for limits in ROWS {
        let mut bench = Bench::of(limits, 3, 1, 0);
        let room = limits.tallies as u16;
        for number in 0..room {
            bench.step(&status(1, name(number), 2, 0b011));
        }
        bench.refused_step(6, &vote(2, 1, name(room), 1));
        bench.refused(3, Call::Tick);
    }
}

#[test]
fn number_7_keeps_clock_and_log() {
    let bench = split();
    assert_eq!(bench.station.clock(), 7);
    assert_eq!(bench.log(), [name(1)]);
}

/// "Offer of a name is taken exactly when ..."
#[test]
fn number_9_is_each_missing_condition() {
    let mut bench = Bench::new(3, 1, 1);
    let offer = name(10);
    // Nothing stored yet, though genesis is certified in the view.
    bench.step(&vote(1, 0, ZERO, 0));
    bench.step(&vote(1, 0, ZERO, 2));
    bench.refused(9, Call::Offer(&offer));
    bench.run_to(3);
    assert_eq!(bench.offer(name(1)).len(), 160);
    // The greatest height isn't certified yet.
    bench.refused(9, Call::Offer(&offer));
    bench.step(&vote(1, 1, name(1), 0));
    // Zero, a name, a parent; of another view too.
    bench.step(&propose(2, 2, name(7), name(6), 0b011, 2));
    for used in [ZERO, name(1), name(7), name(6)] {
        bench.refused(9, Call::Offer(&used));
    }
    assert_eq!(bench.offer(offer).len(), 160);
    bench.step(&vote(1, 2, offer, 0));
    // Not in the view.
    bench.step(&blame_set(1, 0b101));
    bench.refused(9, Call::Offer(&name(11)));
    // In a view, but not its leader.
    bench.run_to(5);
    assert_eq!((bench.station.view(), bench.station.phase()), (2, Phase::InView));
    bench.refused(9, Call::Offer(&name(11)));
}

/// A certified propose alone won't do: "has a new-view of that view stored".
#[test]
fn number_9_is_a_missing_new_view() {
    let mut bench = Bench::new(3, 1, 1);
    bench.step(&propose(1, 1, name(1), ZERO, 0b101, 1));
    bench.step(&vote(1, 1, name(1), 0));
    bench.refused(9, Call::Offer(&name(2)));
    bench.step(&new_view(1, 0, ZERO, 0, 0, 1));
    assert_eq!(bench.offer(name(2)).len(), 160);
}

#[test]
fn number_10_is_each_bad_setting() {
    for (n, d, own) in [
        (0, 1, 0),
        (1, 1, 0),
        (2, 1, 0),
        (4, 1, 0),
        (16, 1, 0),
        (17, 1, 0),
        (259, 1, 0),
        (3, 0, 0),
        (3, 10_001, 0),
        (3, (1 << 32) + 1, 0),
        (3, 1, 3),
        (15, 1, 15),
        (3, 1, 256),
        (u64::MAX, u64::MAX, u64::MAX),
    ] {
        assert_eq!(
            Station::fresh(Limits::SMALL, n, d, own).err(),
            Some(10),
            "n={n} D={d} own={own}"
        );
    }
    for n in (3..=15).step_by(2) {
        for limits in ROWS {
            assert!(Station::fresh(limits, n, 1, n - 1).is_ok());
            assert!(Station::fresh(limits, n, 10_000, 0).is_ok());
        }
    }
}

/// One of each kind with a field 02, of a view whose leader is station 0 of 3.
fn view_bearing(view: u32) -> [Bytes; 5] {
    [
        new_view(view, 0, ZERO, 0, 0, 0),
        propose(view, 1, name(1), ZERO, 0b110, 0),
        vote(view, 1, name(1), 1),
        blame(view, 1),
        blame_set(view, 0b110),
    ]
}

/// "any view-bearing message (one with a field 02) more than one view ahead of the view held".
#[test]
fn number_11_is_any_kind_more_than_one_view_ahead() {
    let mut bench = Bench::new(3, 1, 1);
    for message in view_bearing(3).iter().chain(&view_bearing(30)) {
        bench.refused_step(11, message);
    }
    for message in view_bearing(3) {
        let mut near = Bench::new(3, 1, 1);
        near.step(&blame_set(1, 0b101));
        near.run_to(2);
        assert_eq!(near.station.view(), 2);
        assert_eq!(near.step(&message), []);
        near.refused_step(11, &blame(4, 1));
    }
    // A status has no field 02.
    assert_eq!(bench.step(&status(7, name(1), 32, 0b110)), []);
}

/// ".. or last quit": until the next view is entered.
#[test]
fn number_11_goes_by_the_view_last_quit() {
    let mut bench = Bench::new(3, 2, 0);
    bench.step(&blame_set(1, 0b110));
    bench.quiet_to(2);
    assert_eq!((bench.station.phase(), bench.station.view()), (Phase::Waiting { quit: 0 }, 1));
    assert_eq!(bench.step(&blame(2, 1)), []);
    bench.refused_step(11, &blame(3, 1));
    bench.run_to(3);
    assert_eq!(bench.step(&blame(3, 1)), []);
}

/// "The test comes right after 5, before 12 and 6."
#[test]
fn number_11_comes_between_5_and_6() {
    let mut bench = Bench::new(3, 1, 1);
    bench.refused_step(4, &blame(3, 1)[..14]);
    bench.refused_step(5, &blame(33, 1));
    bench.refused_step(5, &blame(3, 3));
    bench.refused_step(5, &propose(3, 1, name(1), ZERO, 0b010, 0));
    for number in 0..Limits::SMALL.tallies as u16 {
        bench.step(&status(1, name(number + 1), 1, 0b011));
    }
    bench.refused_step(11, &vote(3, 1, name(0), 0));
    bench.refused_step(6, &vote(2, 1, name(0), 0));
    bench.refused_step(3, &vote(3, 1, name(0), 0));
}

/// "Each author open at most 16 by vote messages. The seventeenth is refused with new number 12, changing
/// nothing", tested after 5 and 11, and before 6.
#[test]
fn number_12_is_the_seventeenth_of_an_author() {
    for limits in ROWS {
        let mut bench = Bench::of(limits, 3, 1, 1);
        for number in 0..16 {
            bench.step(&vote(1, 1, name(number), 0));
        }
        bench.refused_step(12, &vote(1, 1, name(16), 0));
        bench.refused_step(11, &vote(3, 1, name(16), 0));
        // a tally that is there takes any vote, and others may still open some
        bench.step(&vote(1, 1, name(15), 0));
        bench.step(&vote(1, 1, name(16), 2));
        bench.step(&vote(1, 1, name(16), 0));
        for number in 17..=limits.tallies as u16 {
            bench.step(&status(1, name(number), 1, 0b011));
            if bench.station.tallies().len() == limits.tallies {
                break;
            }
        }
        bench.refused_step(12, &vote(1, 1, name(5000), 0));
        bench.refused_step(6, &vote(1, 1, name(5000), 2));
    }
}
