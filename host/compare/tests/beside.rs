//! The station over a lent store in plain Rust: recorded runs, and beside the proved one.

use compare::beside;
use compare::pair::Pair;
use compare::sources::{self, Scripted};
use compare::{Met, run};
use programs::{Answer, Lent, Program, Proved};
use second::replay::{Input, parse};
use station::Size;

/// The recorded runs of host/second.
const RECORDED: [(Size, &str); 10] = [
    (Size::Small, include_str!("../../second/tests/data/settings.txt")),
    (Size::Small, include_str!("../../second/tests/data/fuzz-002.txt")),
    (Size::Small, include_str!("../../second/tests/data/parents.txt")),
    (Size::Small, include_str!("../../second/tests/data/sim-001.txt")),
    (Size::Small, include_str!("../../second/tests/data/display.txt")),
    (Size::Small, include_str!("../../second/tests/data/fuzz-008.txt")),
    (Size::Small, include_str!("../../second/tests/data/damage-6.txt")),
    (Size::Small, include_str!("../../second/tests/data/ahead.txt")),
    (Size::Small, include_str!("../../second/tests/data/quorums.txt")),
    (Size::Large, include_str!("../../second/tests/data/large/views.txt")),
];

/// It answers and writes what was recorded.
#[test]
fn answers_as_recorded() {
    for (size, text) in RECORDED {
        let mut station = None;
        for event in parse(text).unwrap() {
            if let Input::Fresh { n, d, own } = event.input {
                let made = Lent::fresh(size, n, d, own);
                assert_eq!(made.as_ref().err().copied().unwrap_or(0), event.answer.code);
                station = made.ok().or(station);
                continue;
            }
            let station = station.as_mut().unwrap();
            let Answer { number, out } = match &event.input {
                Input::Tick => station.tick(),
                Input::Step(message) => station.step(message),
                Input::Offer(name) => station.offer(name),
                _ => continue,
            };
            assert_eq!((number, out), (event.answer.code, &event.answer.out[..]), "{}", event.line);
        }
    }
}

/// It answers and writes what the proved station does, to the last byte of store and out buffer, with damaged stores too.
#[test]
fn is_the_proved_station_to_the_byte() {
    let (mut met, mut beside) = (Met::default(), beside::Met::default());
    for size in Size::ALL {
        for (title, inputs) in [sources::limits(size), sources::parents()].concat() {
            beside::run(size, &inputs, 1, &mut beside).expect(title);
        }
        for seed in 0..if size == Size::Large { 4 } else { 20 } {
            let (inputs, found) =
                run(Pair::<Proved>::new(size), Scripted::new(size, seed), &mut met);
            assert_eq!(found, None);
            beside::run(size, &inputs, seed, &mut beside).expect("the same");
        }
    }
    assert!(beside.damaged > 1000 && beside.formed > 500, "{beside:?}");
    assert!(beside.damaged - beside.formed > 500, "{beside:?}");
}
