//! Writes scripts with this program's answers, as `replay` reads them: `script [--large] SEED
//! [INPUTS]`.

use second::scripts::Script;
use second::Limits;
use std::process::ExitCode;

fn main() -> ExitCode {
    let mut words = std::env::args().skip(1).peekable();
    let large = words.next_if_eq("--large").is_some();
    let limits = if large { Limits::LARGE } else { Limits::SMALL };
    let words: Option<Vec<u64>> = words.map(|word| word.parse().ok()).collect();
    let (seed, inputs) = match words.as_deref() {
        Some([seed]) => (*seed, 500),
        Some([seed, inputs]) => (*seed, *inputs),
        _ => {
            eprintln!("script [--large] SEED [INPUTS]");
            return ExitCode::FAILURE;
        }
    };
    for event in Script::new(limits, seed).take(inputs as usize) {
        println!("{event}");
    }
    ExitCode::SUCCESS
}
