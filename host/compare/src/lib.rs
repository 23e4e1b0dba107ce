//! The proved station and the second program in lockstep: after each input they must have answered
//! alike, written the same bytes, and hold the same log and tables. The plain engine goes along as far
//! as its list has room.
//!
//! `beside` does so to the byte with the station over a lent store in plain Rust.
//!
//! `pair` takes one input to both, `referee` to the plain engine, `sources` has the inputs, `shrink`
//! cuts a failing run down, `text`
//! reads and writes runs as scripts, `tell` says what the script program must print of one.

#![forbid(unsafe_code)]

pub mod beside;
pub mod journals;
pub mod pair;
pub mod recorded;
pub mod referee;
pub mod shrink;
pub mod sources;
pub mod tell;
pub mod text;

use pair::Pair;
use programs::Program;
use second::replay::Input;
use sources::Source;

/// Where two programs went apart: at which input of a run, and how.
#[derive(Clone, Debug, PartialEq, Eq)]
pub struct Difference {
    pub at: usize,
    pub how: String,
}

/// What was met on the way.
#[derive(Clone, Debug, Default)]
pub struct Met {
    pub inputs: u64,
    pub runs: u64,
    /// How many of the inputs the plain engine took too.
    pub judged: u64,
    /// How often each number was answered.
    pub numbers: [u64; 13],
    /// How many messages to all, messages to one, and commits there were.
    pub effects: [u64; 3],
}

/// Runs a source of inputs to its end: the inputs, and the difference if there is one.
pub fn run<P: Program>(
    mut pair: Pair<P>,
    mut source: impl Source,
    met: &mut Met,
) -> (Vec<Input>, Option<Difference>) {
    let mut inputs = Vec::new();
    met.runs += 1;
    while let Some(input) = source.next(pair.second()) {
        let taken = pair.take(&input, met);
        inputs.push(input);
        if let Err(how) = taken {
            let at = inputs.len() - 1;
            return (inputs, Some(Difference { at, how }));
        }
    }
    let found = pair.end().err().map(|how| Difference { at: inputs.len() - 1, how });
    (inputs, found)
}

/// Runs these inputs alone.
pub fn replay<P: Program>(pair: Pair<P>, inputs: &[Input]) -> Option<Difference> {
    run(pair, sources::Fixed::new(inputs), &mut Met::default()).1
}
