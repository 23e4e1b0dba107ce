//! 02's "When was it certified?": each way by which a tally comes to a quorum, and the clock that it
//! then keeps.

use crate::common::*;

/// One voter counts once, however often it votes; the f+1st brings the clock.
#[test]
fn by_a_vote() {
    let mut bench = Bench::new(5, 1, 0);
    for (clock, author) in [(0, 1), (2, 2), (3, 2), (4, 1)] {
        bench.run_to(clock);
        bench.step(&vote(1, 1, name(1), author));
        assert_eq!(bench.certified(1, 1, name(1)), None);
    }
    bench.run_to(5);
    bench.step(&vote(1, 1, name(1), 4));
    assert_eq!(bench.certified(1, 1, name(1)), Some(5));
}

/// A statement's certificate opens a tally with a quorum, or brings one to it; a statement that is
/// stored already, with another mask, too.
#[test]
fn by_a_certificate() {
    let mut bench = Bench::new(5, 1, 0);
    bench.run_to(2);
    bench.step(&propose(2, 2, name(2), name(1), 0b00111, 2));
    assert_eq!(bench.certified(2, 1, name(1)), Some(2));
    assert_eq!(bench.certified(2, 2, name(2)), None);
    bench.step(&vote(2, 2, name(2), 3));
    bench.run_to(3);
    bench.step(&propose(2, 3, name(3), name(2), 0b11001, 2));
    assert_eq!(bench.certified(2, 2, name(2)), Some(3));
    // a new-view's certificate is of the view that it names
    bench.run_to(4);
    bench.step(&new_view(2, 1, name(1), 1, 0b11100, 2));
    assert_eq!(bench.certified(1, 1, name(1)), Some(4));
    assert_eq!(bench.certified(2, 1, name(1)), Some(2));
    bench.run_to(6);
    bench.step(&propose(2, 2, name(2), name(1), 0b11100, 2));
    assert_eq!(bench.mask(2, 1, name(1)), Some(0b11111));
    assert_eq!(bench.certified(2, 1, name(1)), Some(2));
}

#[test]
fn by_a_status() {
    let mut bench = Bench::new(3, 1, 0);
    bench.run_to(3);
    bench.step(&status(1, name(1), 1, 0b101));
    bench.step(&vote(1, 2, name(2), 1));
    bench.run_to(4);
    bench.step(&status(2, name(2), 1, 0b101));
    assert_eq!(bench.certified(1, 1, name(1)), Some(3));
    assert_eq!(bench.certified(1, 2, name(2)), Some(4));
    // "genesis in view 0 changes nothing", and is certified without a tally
    bench.step(&status(0, ZERO, 0, 0));
    assert_eq!(bench.certified(0, 0, ZERO), None);
}

#[test]
fn by_the_own_vote() {
    let mut bench = Bench::new(3, 1, 0);
    bench.step(&vote(1, 1, name(1), 1));
    bench.run_to(2);
    bench.step(&propose(1, 1, name(1), ZERO, 0b110, 1));
    assert_eq!(bench.certified(1, 1, name(1)), Some(2));
    assert_eq!(bench.certified(1, 0, ZERO), Some(2));
}

/// The own vote for what was offered, whose name had a vote already.
#[test]
fn by_an_offer() {
    let mut bench = Bench::new(3, 1, 1);
    bench.run_to(3);
    assert_eq!(bench.certified(1, 0, ZERO), None);
    bench.step(&vote(1, 0, ZERO, 0));
    assert_eq!(bench.certified(1, 0, ZERO), Some(3));
    bench.step(&vote(1, 1, name(1), 2));
    bench.run_to(4);
    bench.offer(name(1));
    assert_eq!(bench.certified(1, 1, name(1)), Some(4));
    assert_eq!(bench.certified(1, 0, ZERO), Some(3));
}

/// What a tick joins has the new clock: the leader's vote for its own new-view, and the votes of an
/// entry.
#[test]
fn in_a_tick_the_new_clock() {
    let mut bench = Bench::new(3, 1, 1);
    bench.step(&vote(1, 0, ZERO, 2));
    bench.quiet_to(2);
    assert_eq!(bench.certified(1, 0, ZERO), None);
    bench.tick();
    assert_eq!(bench.certified(1, 0, ZERO), Some(3));

    let mut bench = Bench::new(3, 1, 0);
    bench.step(&propose(2, 1, name(1), ZERO, 0b110, 2));
    bench.step(&vote(2, 1, name(1), 2));
    bench.step(&blame_set(1, 0b110));
    bench.quiet_to(1);
    assert_eq!(bench.certified(2, 1, name(1)), None);
    bench.tick();
    assert_eq!(bench.certified(2, 1, name(1)), Some(2));
}

/// "The clock at which it first reached a quorum": nothing that comes later moves it.
#[test]
fn never_moved_later() {
    let mut bench = Bench::new(5, 1, 0);
    bench.step(&status(1, name(1), 1, 0b00111));
    for (clock, author) in [(1, 3), (2, 4), (3, 0)] {
        bench.run_to(clock);
        bench.step(&vote(1, 1, name(1), author));
        bench.step(&status(1, name(1), 1, 0b11001));
        assert_eq!(bench.certified(1, 1, name(1)), Some(0));
    }
    assert_eq!(bench.mask(1, 1, name(1)), Some(0b11111));
}

/// A tally is of one view, one height and one name; where there is none, there is no clock.
#[test]
fn of_one_tally() {
    let mut bench = Bench::new(3, 1, 0);
    bench.step(&status(1, name(1), 1, 0b101));
    for (view, height, number) in [(2, 1, 1), (1, 2, 1), (1, 1, 2), (0, 1, 1), (1, 0, 1)] {
        assert_eq!(bench.certified(view, height, name(number)), None);
    }
    let station = &bench.station;
    for (view, height) in [(1 << 32, 1), (1, 1 << 32), (1 << 32 | 1, 1), (u64::MAX, u64::MAX)] {
        assert_eq!(station.certified(view, height, &name(1)), Ok(None));
    }
    assert_eq!(station.certified(1, 1, &name(1)), Ok(Some(0)));
    // a name of another length comes before all else
    for short_or_long in [&name(1)[..31], &[name(1), name(1)].concat()[..33], &[]] {
        assert_eq!(station.certified(u64::MAX, 1, short_or_long), Err(1));
    }
}

/// A refused input moves none, and a stopped station still tells.
#[test]
fn a_stopped_station_tells() {
    let mut bench = Bench::new(3, 1, 0);
    bench.run_to(1);
    for number in 1..=bench.station.settings().limits().tallies as u16 {
        bench.step(&status(1, name(number), 1, 0b110));
    }
    bench.refused_step(6, &status(1, name(5000), 1, 0b110));
    bench.refused_step(3, &vote(1, 1, name(1), 0));
    assert_eq!(bench.certified(1, 1, name(1)), Some(1));
    assert_eq!(bench.certified(1, 1, name(5000)), None);
}
