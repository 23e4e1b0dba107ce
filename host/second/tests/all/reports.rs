//! 02's "Choosing between two reports": its sentences, and recorded pairs.

use crate::common::{blame, name, status, vote};
use second::choose;

/// Voted for by stations 0 and 1.
const MASK: u16 = 0b11;

fn report(view: u32, height: u32, number: u16) -> Vec<u8> {
    status(height, name(number), view, MASK)
}

/// Which part is handed back, by three stations with the small limits.
fn among<'a>(first: &'a [u8], second: &'a [u8]) -> &'a [u8] {
    choose(0, 3, first, second)
}

#[test]
fn the_higher_rank() {
    let (low, high) = (report(1, 9, 1), report(2, 1, 2));
    assert_eq!(among(&low, &high), &high[4..58]);
    assert_eq!(among(&high, &low), &high[4..58]);
    let taller = report(1, 10, 1);
    assert_eq!(among(&low, &taller), &taller[4..]);
}

#[test]
fn equal_rank_gives_the_first() {
    let (one, other) = (report(1, 9, 1), report(1, 9, 2));
    assert_eq!(among(&one, &other).as_ptr(), one[4..].as_ptr());
    assert_eq!(among(&other, &one).as_ptr(), other[4..].as_ptr());
}

#[test]
fn only_one_or_neither() {
    let good = report(1, 9, 1);
    let not_allowed = status(9, name(1), 2, 0b1);
    for other in [&good[..57], &not_allowed, &vote(2, 9, name(1), 0), &blame(2, 0), &[]] {
        assert_eq!(among(&good, other), &good[4..]);
        assert_eq!(among(other, &good), &good[4..]);
        let none = among(other, other);
        assert_eq!((none.len(), none.as_ptr()), (0, other.as_ptr()));
    }
}

#[test]
fn kinds_and_stations() {
    let (late, good) = (report(200, 9, 1), report(1, 9, 1));
    assert_eq!(choose(4, 3, &late, &good), &late[4..]);
    assert_eq!(choose(0, 3, &late, &good), &good[4..]);
    for (kind, n) in [(1, 3), (2, 3), (5, 3), (0, 4), (0, 1), (0, 17)] {
        assert!(choose(kind, n, &good, &good).is_empty());
    }
}

#[test]
fn recorded_pairs() {
    for line in include_str!("../data/reports.txt").lines() {
        let words: Vec<&str> = line.split(' ').collect();
        let ["status_choose", kind, n, first, second, "=", "0", answer] = words[..] else {
            panic!("no such line: {line}");
        };
        let (first, second) = (bytes(first), bytes(second));
        let part = choose(kind.parse().unwrap(), n.parse().unwrap(), &first, &second);
        let of_first = first.as_ptr_range().contains(&part.as_ptr());
        let said = match (part.is_empty(), of_first) {
            (true, _) => "0",
            (false, true) => "1",
            (false, false) => "2",
        };
        assert_eq!(said, answer, "{line}");
    }
}

fn bytes(hex: &str) -> Vec<u8> {
    let digits = if hex == "-" { "" } else { hex };
    let byte = |at| u8::from_str_radix(&digits[at..at + 2], 16).unwrap();
    (0..digits.len()).step_by(2).map(byte).collect()
}
