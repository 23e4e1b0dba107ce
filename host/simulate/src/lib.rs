//! A group of stations under 01's "schedule of demand 3": common ticks, deliveries within D, offers,
//! and faulty stations that send what the two premises allow. Demand 3 and request 12 are checked
//! as it goes, and what happened can be drawn.
//!
//! `group` runs the schedule, `fault` and `wild` are the faulty stations, `link` bundles letters, `watch` and `progress` check, `trace` keeps
//! what happened, `story` says why one commit is safe, `picture` draws.

#![forbid(unsafe_code)]

mod canvas;
pub mod fault;
pub mod group;
mod link;
pub mod picture;
pub mod progress;
pub mod story;
pub mod trace;
pub mod watch;
mod wild;

pub use fault::Fault;
pub use group::{Delays, Group, Plan};
