//! The independent second program: one station of a Sync HotStuff group, written from documents
//! 01 and 02 and the readings of 01 that docs/DECISIONS.md lists by number. The proved station is
//! compared with it, in answers, bytes and speed.
//!
//! `settings` has the limits, `words` the records, `wire` the messages, `station` what a message and
//! an offer do, `tick` what a tick does, `display` what the wall display shows,
//! `report` chooses between two reports, `journal` keeps inputs through power cuts, `envelope` bundles messages,
//! `slip` checks and writes slips. `replay` reads recorded runs, `scripts` makes new ones.

#![forbid(unsafe_code)]

mod display;
pub mod envelope;
pub mod journal;
pub mod random;
pub mod refusal;
pub mod replay;
mod report;
pub mod scripts;
pub mod settings;
pub mod slip;
pub mod station;
mod tick;
pub mod wire;
pub mod words;

pub use display::Shown;
pub use refusal::{Cause, Refusal};
pub use report::choose;
pub use settings::{Limits, Settings};
pub use station::{Phase, Station};
pub use words::{Block, Made, Name, Statement, Tally};
