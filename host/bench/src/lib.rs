//! What is measured: a script, in `bench` input by input, in `instructions` by valgrind's count and in `replays` as a
//! journal, in `check` stores, against the check of the station over a lent store in plain Rust; in `lists` the plain
//! engine.

#![forbid(unsafe_code)]

pub mod script;
pub mod stores;

/// The seconds for which others had the processor while this program could have gone on, where Linux says
/// it.
pub fn waited() -> f64 {
    let said = std::fs::read_to_string("/proc/thread-self/schedstat").unwrap_or_default();
    let waited = said.split(' ').nth(1).and_then(|ns| ns.parse().ok());
    waited.unwrap_or(0.0) / 1e9
}
