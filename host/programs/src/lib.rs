//! The proved station, the second program and the station over a lent store in plain Rust behind one
//! trait, so that one test, one simulation and one benchmark runs any of them; and the plain engine,
//! which has no store to show.

#![forbid(unsafe_code)]

mod journals;
mod lent_program;
mod plain_engine;
mod proved;
mod second_program;
pub mod shown;
pub mod words;

pub use journals::Journals;
pub use lent_program::Lent;
pub use plain_engine::PlainEngine;
pub use proved::Proved;
pub use second_program::{Second, limits};
use station::{Lock, Name, Phase, Shown, Size};

/// What a call answers: 01's number, and the bytes written.
#[derive(Clone, Copy, Debug, PartialEq, Eq)]
pub struct Answer<'a> {
    pub number: u32,
    pub out: &'a [u8],
}

/// A station, as a host sees it.
pub trait Program: Sized {
    const TITLE: &'static str;

    fn fresh(size: Size, n: u64, d: u64, own: u64) -> Result<Self, u32>;
    fn step(&mut self, message: &[u8]) -> Answer<'_>;
    fn tick(&mut self) -> Answer<'_>;
    fn offer(&mut self, name: &[u8]) -> Answer<'_>;

    fn phase(&self) -> Phase;
    fn view(&self) -> u32;
    fn lock(&self) -> Lock;
    fn log(&self) -> Vec<Name>;
    fn display(&self) -> Vec<Shown>;
    /// When a block was certified, as the call answers: refusal * 2^32 + count.
    fn certified(&self, view: u64, height: u64, name: &[u8]) -> u64;

    /// Its state as the bytes of a store, but for what only one of the programs shows.
    fn shown(&self) -> Vec<u8>;
}
