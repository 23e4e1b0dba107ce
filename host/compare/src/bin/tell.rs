//! What the script program must print, by the second program:
//!
//!     tell SCRIPT           of a script
//!     tell --run SEED       a random run, as a script
//!
//! Of a bad line it doesn't say what is wrong with it, and of a lock not the mask.

use compare::pair::Pair;
use compare::{Met, run, sources, tell, text};
use programs::{Second, words};
use second::replay::Input;
use station::{Message, Size};
use std::process::ExitCode;

fn main() -> ExitCode {
    let words: Vec<String> = std::env::args().skip(1).collect();
    let told = match words.iter().map(String::as_str).collect::<Vec<_>>()[..] {
        ["--run", seed] => seed.parse().map(random).map_err(|error| error.to_string()),
        [path] => {
            std::fs::read(path).map(|script| tell::tell(&script)).map_err(|error| error.to_string())
        }
        _ => Err("tell SCRIPT, or tell --run SEED".into()),
    };
    match told {
        Ok(told) => {
            print!("{told}");
            ExitCode::SUCCESS
        }
        Err(why) => {
            eprintln!("{why}");
            ExitCode::from(2)
        }
    }
}

/// The inputs of a random run; behind every eighth of them the wall display, and when the last block
/// that they name was certified.
fn random(seed: u64) -> String {
    let script = sources::Scripted::new(Size::Small, seed);
    let (inputs, _) = run(Pair::<Second>::new(Size::Small), script, &mut Met::default());
    inputs
        .chunks(8)
        .map(|inputs| {
            let asked = inputs.iter().rev().find_map(asked).unwrap_or_default();
            text::write(inputs) + "display\n" + &asked
        })
        .collect()
}

/// The line that asks when the block of a message was certified.
fn asked(input: &Input) -> Option<String> {
    let Input::Step(message) = input else { return None };
    let (view, height, name) = match Message::decode(message).ok()? {
        Message::NewView { view, height, name, .. }
        | Message::Propose { view, height, name, .. }
        | Message::Vote { view, height, name, .. }
        | Message::Status { certificate_view: view, height, name, .. } => (view, height, name),
        Message::Blame { .. } | Message::BlameSet { .. } => return None,
    };
    Some(format!("certified {view} {height} {}\n", words::name(name)))
}
