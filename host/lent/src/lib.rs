//! One station over a lent store, in plain safe Rust: what the proved station is measured against where the check of the
//! store counts. It holds nothing between calls. Each call looks at the lengths, then at the whole store, by the method of
//! the proved check, and then does what the rules say on the store's bytes. Written from documents 01 and 02, the readings
//! of docs/DECISIONS.md and the layout of docs/STORE.md.
//!
//! `bytes` reads numbers, `settings` has what is allowed, `check` looks at a store and keeps where its records are, `wire`
//! reads and writes messages, `acts` has messages and offers, `tick` the tick.

#![forbid(unsafe_code)]

mod acts;
mod bytes;
pub mod check;
mod settings;
mod tick;
mod wire;

use acts::Station;
use check::Index;
use station::{Refusal, Size};

pub(crate) type Outcome = Result<(), Refusal>;

fn refused(refusal: Refusal) -> u64 {
    u64::from(refusal.number()) << 32
}

/// A fresh store, as `station_fresh` makes it.
pub fn fresh(store: &mut [u8], n: u64, d: u64, own: u64) -> u64 {
    if Size::of_store(store.len()).is_none() {
        return refused(Refusal::Length);
    }
    if n.is_multiple_of(2) || !(3..=15).contains(&n) || !(1..=10_000).contains(&d) || own >= n {
        return refused(Refusal::Settings);
    }
    store.fill(0);
    store[4] = n as u8;
    store[5..7].copy_from_slice(&(d as u16).to_be_bytes());
    store[7] = own as u8;
    store[11] = 1;
    0
}

/// One message from another station, as `station_step` takes it.
pub fn step(store: &mut [u8], message: &[u8], out: &mut [u8]) -> u64 {
    call(store, out, true, |station| station.receive(message))
}

/// One tick of the clock, as `station_tick` takes it.
pub fn tick(store: &mut [u8], out: &mut [u8]) -> u64 {
    call(store, out, true, |station| station.tick())
}

/// The offer of a name by the host, as `station_offer` takes it.
pub fn offer(store: &mut [u8], name: &[u8], out: &mut [u8]) -> u64 {
    call(store, out, name.len() == 32, |station| match name.try_into() {
        Ok(name) => station.take(name),
        Err(_) => Err(Refusal::Length),
    })
}

/// "Order: 1, 2, 3", then the deed's own refusals: refusal * 2^32 + count.
#[inline]
fn call(
    store: &mut [u8],
    out: &mut [u8],
    fits: bool,
    deed: impl FnOnce(&mut Station) -> Outcome,
) -> u64 {
    let Some(size) = Size::of_store(store.len()) else { return refused(Refusal::Length) };
    if out.len() < size.out_length() || !fits {
        return refused(Refusal::Length);
    }
    let mut index = Index::new();
    if !index.check(size, store) {
        return refused(Refusal::Store);
    }
    let mut station = Station::of(size, store, &index, out);
    if station.is_stopped() {
        return refused(Refusal::Stopped);
    }
    match deed(&mut station) {
        Ok(()) => station.written(),
        Err(refusal) => refused(refusal),
    }
}
