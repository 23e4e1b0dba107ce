//! Scripts: the same for a seed, reaching what they should, and leaving the station in order.

use crate::common::{all_but_phase, ROWS};
use second::replay::{replay, Event, Input};
use second::scripts::Script;
use second::{Block, Limits, Statement, Station};
use std::collections::BTreeSet;

#[test]
fn a_seed_gives_one_script() {
    let events = |seed| Script::new(Limits::SMALL, seed).take(400).collect::<Vec<Event>>();
    for seed in 0..20 {
        assert_eq!(events(seed), events(seed));
        assert_ne!(events(seed), events(seed + 1));
    }
}

#[test]
fn a_script_reads_as_a_recorded_run() {
    for (seed, limits) in (0..20).zip(ROWS.into_iter().cycle()) {
        let events = Script::new(limits, seed).take(300);
        let text: String = events.map(|event| format!("{event}\n")).collect();
        assert_eq!(replay(limits, &text), Ok(text.lines().count() / 2));
    }
}

/// The kinds of outgoing fields: the tag, and the message's kind.
fn kinds(mut out: &[u8]) -> Vec<(u8, u8)> {
    let mut kinds = Vec::new();
    while let [tag, high, low, rest @ ..] = out {
        let (value, after) = rest.split_at(usize::from(u16::from_be_bytes([*high, *low])));
        kinds.push((
            *tag,
            match tag {
                0x10 => value[3],
                0x11 => value[4],
                _ => 0,
            },
        ));
        out = after;
    }
    kinds
}

#[test]
fn scripts_reach_every_answer_and_every_outgoing_kind() {
    let mut answers = BTreeSet::new();
    let mut sent = BTreeSet::new();
    let mut views = BTreeSet::new();
    let mut offers = 0;
    for seed in 0..600 {
        let mut script = Script::new(Limits::SMALL, seed);
        for event in script.by_ref().take(1000) {
            answers.insert(event.answer.code);
            sent.extend(kinds(&event.answer.out));
            let taken = matches!(event.input, Input::Offer(_)) && event.answer.code == 0;
            offers += u32::from(taken);
        }
        views.extend(script.station().map(Station::view));
    }
    assert!(answers.into_iter().eq([0, 1, 3, 4, 5, 6, 7, 9, 11, 12]));
    let all = (1..=5).map(|kind| (0x10, kind)).chain([(0x11, 6), (0x12, 0)]);
    assert!(sent.into_iter().eq(all));
    assert!(views.contains(&1) && views.iter().any(|&view| view > 20));
    assert!(offers > 100);
}

/// Over scripts, each call keeps what 01 says of refusals, and the station stays in order.
#[test]
fn stations_stay_in_order() {
    for (seed, limits) in (1000..1200).zip(ROWS.into_iter().cycle()) {
        let mut script = Script::new(limits, seed);
        let mut before: Option<Station> = None;
        while let Some(event) = script.next() {
            let station = script.station().expect("a station after the first event");
            let number = event.answer.code;
            assert!(event.answer.out.len() <= limits.out);
            if let (Some(before), true) = (&before, number != 0) {
                assert!(event.answer.out.is_empty());
                assert!(all_but_phase(station) == all_but_phase(before));
                assert_eq!(station.phase() != before.phase(), (6..=8).contains(&number));
            }
            assert_in_order(station);
            // "the clock at which it first reached a quorum" is what the clock then was, and stays
            let earlier = before.as_ref().map_or(&[][..], Station::reached);
            for (place, reached) in station.reached().iter().enumerate() {
                let known = earlier.get(place).copied().flatten();
                assert_eq!(*reached, known.or(reached.map(|_| station.clock())));
            }
            before = Some(station.clone());
            if event.line > 1600 {
                break;
            }
        }
    }
}

/// What docs/STORE.md says of a well-formed store, as far as a host can see it.
fn assert_in_order(station: &Station) {
    let (statements, tallies) = (station.statements(), station.tallies());
    let limits = station.settings().limits();
    assert!(statements.len() <= limits.statements && tallies.len() <= limits.tallies);
    assert!(station.entry() <= station.clock() && station.lock().view < station.view());
    let has_tally = |block: &Block| tallies.iter().any(|tally| tally.block == *block);
    for (place, statement) in statements.iter().enumerate() {
        assert!(!statements[..place].iter().any(|old| old.is_same(statement)));
        let certified = statement.certificate().block;
        assert!(has_tally(&statement.block));
        assert!(certified == Block::GENESIS || has_tally(&certified));
    }
    for (place, tally) in tallies.iter().enumerate() {
        assert!(tally.block.view >= 1);
        assert!(!tallies[..place].iter().any(|old| old.block == tally.block));
        let reached = station.reached()[place];
        assert_eq!(reached.is_some(), station.settings().full(tally.mask));
        assert!(reached.is_none_or(|clock| clock <= station.clock()));
    }
    let mut parent = second::Name::ZERO;
    for (height, name) in (1..).zip(station.log()) {
        let logged = |old: &Statement| {
            old.block.height == height && old.block.name == name && old.parent() == Some(parent)
        };
        assert!(statements.iter().any(logged));
        parent = name;
    }
}
