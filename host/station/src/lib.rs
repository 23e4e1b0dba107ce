//! One proved station of a Sync HotStuff group, for hosts written in Rust.
//!
//! A [`Station`] takes messages, ticks and offers, and gives back [`Effects`]: what to send, and what
//! it committed. It does no input or output of its own. The station itself is the proved archive
//! behind the calls in [`ffi`]; this crate owns the buffers and gives bytes their types. A [`Kept`]
//! station has each input in a [`Journal`] on the disk before its effects are given back.
//! A [`Plain`] engine keeps all its inputs in place of a store: a referee to hold a station to.
//! docs/HOST.md says what a host must do, and what it may rely on.
//!
//! ```
//! use station::{Effect, Size, Station};
//!
//! // station 1 of 3, messages take at most 2 ticks
//! let mut station = Station::fresh(Size::Small, 3, 2, 1)?;
//! for _ in 1..=5 {
//!     for effect in station.tick()? {
//!         match effect {
//!             Effect::ToAll(message) => println!("to all: {message:?}"),
//!             Effect::ToOne { station, message } => println!("to {station}: {message:?}"),
//!             Effect::Committed { height, name } => println!("at {height}: {name:02x?}"),
//!         }
//!     }
//! }
//! # Ok::<(), station::Refusal>(())
//! ```

#![deny(unsafe_code)]

mod display;
mod effect;
mod envelope;
mod failure;
pub mod ffi;
mod journal;
mod kept;
mod message;
mod plain;
mod refusal;
mod report;
pub mod size;
mod slip;
mod slot;
mod station;
mod store;

pub use display::Shown;
pub use effect::{Effect, Effects};
pub use envelope::{ENVELOPE, Envelope, Messages, envelope};
pub use failure::Failure;
pub use journal::{Journal, Report};
pub use kept::Kept;
pub use message::{GENESIS, Message, Name};
pub use plain::Plain;
pub use refusal::{Refusal, answer};
pub use report::choose;
pub use size::Size;
pub use slip::{BadSlip, Slip};
pub use slot::{Input, SLOT, Slot};
pub use station::Station;
pub use store::{Cause, Lock, Phase};
