//! Says what is on a slip:
//!
//!     slip [--large] N      the slip in hex or raw from standard input, of a group of N stations
//!     slip --store STORE    the same of the group of a kept store, with when it saw each entry certified
//!
//! The exit is 0 where it was accepted, 1 where it was refused, 2 where nothing could be checked.

use slips::{Told, tell, tell_by};
use station::{Size, Station};
use std::io::Read;
use std::process::ExitCode;

fn main() -> ExitCode {
    match asked() {
        Ok(Told { said, is_accepted }) => {
            print!("{said}");
            if is_accepted { ExitCode::SUCCESS } else { ExitCode::FAILURE }
        }
        Err(why) => {
            eprintln!("{why}");
            ExitCode::from(2)
        }
    }
}

fn asked() -> Result<Told, String> {
    let words: Vec<String> = std::env::args().skip(1).collect();
    let words: Vec<&str> = words.iter().map(String::as_str).collect();
    let (size, n) = match words[..] {
        ["--store", path] => {
            let store = std::fs::read(path).map_err(|error| format!("{path}: {error}"))?;
            let station =
                Station::from_store(&store).map_err(|refusal| format!("{path}: {refusal}"))?;
            return tell_by(&station, &input()?);
        }
        ["--large", n] => (Size::Large, n),
        [n] => (Size::Small, n),
        _ => {
            return Err(
                "slip [--large] N, or slip --store STORE; the slip from standard input".into()
            );
        }
    };
    let n = n.parse().map_err(|_| format!("{n} is no number"))?;
    tell(size, n, &input()?)
}

/// The slip from standard input.
fn input() -> Result<Vec<u8>, String> {
    let mut input = Vec::new();
    std::io::stdin().read_to_end(&mut input).map_err(|error| error.to_string())?;
    Ok(input)
}
