//! The second program's state as the bytes of a store, by docs/STORE.md, so that it can be held
//! against the proved station's store byte by byte. Two things the second program doesn't show: the
//! clocks of votes, and the mask of the lock. They are zero here.

use second::{Made, Station};
use station::size::{BLAME, HEADER, NAME, STATEMENT, TALLY};
use station::{Cause, Phase, Size};

const LOCK_MASK: usize = 60;
const VOTE: usize = 76;

/// Puts zero for what only one program shows.
pub fn hide(size: Size, store: &mut [u8]) {
    store[LOCK_MASK..LOCK_MASK + 2].fill(0);
    for statement in store[HEADER..size.tallies_at()].chunks_exact_mut(STATEMENT) {
        statement[VOTE..].fill(0);
    }
}

/// The store that a station of the second program would have.
pub fn store_of(size: Size, station: &Station) -> Vec<u8> {
    let mut store = Vec::with_capacity(size.store_length());
    header(station, &mut store);
    statements(station, &mut store);
    store.resize(size.tallies_at(), 0);
    let kept = station.openers().iter().zip(station.reached());
    for (tally, (opener, reached)) in station.tallies().iter().zip(kept) {
        block(&tally.block, &mut store);
        store.extend(tally.mask.to_be_bytes());
        store.push(opener.map_or(0, |author| author + 1));
        store.extend(reached.map_or(0, |clock| clock + 1).to_be_bytes());
    }
    store.resize(size.blames_at(), 0);
    for view in 1..=size.views() {
        store.extend(station.blames(view).to_be_bytes());
    }
    for name in station.log() {
        store.extend(name.to_bytes());
    }
    store.resize(size.store_length(), 0);
    store
}

fn header(station: &Station, store: &mut Vec<u8>) {
    let settings = station.settings();
    let phase = match crate::second_program::phase(station.phase()) {
        Phase::InView => 0,
        Phase::Stopped(Cause::Full) => 1,
        Phase::Stopped(Cause::Split) => 2,
        Phase::Stopped(Cause::Clock) => 3,
        Phase::Waiting { quit } => quit + 4,
    };
    store.extend(phase.to_be_bytes());
    store.push(settings.stations());
    store.extend((settings.delay() as u16).to_be_bytes());
    store.push(settings.own());
    for number in [station.view(), station.entry(), station.clock()] {
        store.extend(number.to_be_bytes());
    }
    block(station.lock(), store);
    store.extend([0; 2]);
    for count in [station.statements().len(), station.tallies().len(), station.log().len()] {
        store.extend((count as u16).to_be_bytes());
    }
}

fn statements(station: &Station, store: &mut Vec<u8>) {
    for statement in station.statements() {
        block(&statement.block, store);
        store.push(if statement.is_new_view() { 1 } else { 2 });
        store.push(station.settings().leader(statement.block.view));
        store.extend(statement.mask.to_be_bytes());
        match statement.made {
            Made::NewView { certificate_view } => {
                store.extend([0; 28]);
                store.extend(certificate_view.to_be_bytes());
            }
            Made::Propose { parent } => store.extend(parent.to_bytes()),
        }
        store.extend([0; 4]);
    }
}

fn block(block: &second::Block, store: &mut Vec<u8>) {
    store.extend(block.view.to_be_bytes());
    store.extend(block.height.to_be_bytes());
    store.extend(block.name.to_bytes());
}

/// Where a byte of a store belongs, in words.
pub fn place(size: Size, at: usize) -> String {
    let tables = [
        ("log entry", size.log_at(), NAME),
        ("blame mask", size.blames_at(), BLAME),
        ("tally", size.tallies_at(), TALLY),
        ("statement", HEADER, STATEMENT),
    ];
    match tables.into_iter().find(|(_, base, _)| at >= *base) {
        Some((what, base, bytes)) => {
            format!("{what} {}, byte {}", (at - base) / bytes, (at - base) % bytes)
        }
        None => format!("header, byte {at}"),
    }
}
