//! The second program held to 01, to how docs/DECISIONS.md reads it, and to recorded runs; one test
//! program, so that it builds fast.

mod bench;
mod certified;
mod common;
mod journals;
mod limits;
mod refusals;
mod reports;
mod rulings;
mod scripts;
mod slips;
mod vectors;
