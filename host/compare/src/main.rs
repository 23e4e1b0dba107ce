//! Compares the proved station with the second program:
//!
//!     compare [--plain K] [--inputs N] [--seconds S] [--seed SEED]    random scripts and journals, after 01's bench
//!     compare [--plain K] [--large] SCRIPT..                          scripts of yours
//!
//! The bench, and runs to the last record and the last view, are those of both sizes; of the random
//! scripts one in eight is for the large one. With each goes a random journal, cut and damaged in many
//! ways. One in four goes to the station over a lent store in plain Rust too, with damaged stores on the
//! way. The plain engine takes the first K inputs of each run with a small store too (16, if nothing is
//! said; 0 for none): each of its calls works through all inputs before it. It ends after N inputs (a
//! million, if nothing is said), or after S seconds, or at the first difference, which it prints as a
//! short script. The exit is 0 exactly when there was none.

use compare::pair::Pair;
use compare::sources::{self, Scripted};
use compare::{Difference, Met, beside, journals, replay, run, shrink, text};
use programs::Proved;
use second::random::Random;
use second::replay::Input;
use station::Size;
use std::process::ExitCode;
use std::time::{Duration, Instant, SystemTime};

/// What was asked for.
struct Asked {
    /// How many inputs of a run the plain engine takes.
    plain: usize,
    inputs: u64,
    time: Option<Duration>,
    seed: u64,
    /// What the scripts are for.
    size: Size,
    scripts: Vec<String>,
}

/// One in so many random scripts is for the large size: its stores take much longer to check.
const LARGE: u64 = 8;

/// One in so many random scripts goes to the station over a lent store in plain Rust too.
const BESIDE: u64 = 4;

/// What was met on the way.
#[derive(Default)]
struct All {
    met: Met,
    kept: journals::Met,
    beside: beside::Met,
}

fn main() -> ExitCode {
    let asked = match asked() {
        Ok(asked) => asked,
        Err(why) => {
            eprintln!(
                "{why}\ncompare [--plain K] [--inputs N] [--seconds S] [--seed SEED], or compare [--plain K] [--large] SCRIPT.."
            );
            return ExitCode::from(2);
        }
    };
    let mut all = All::default();
    let start = Instant::now();
    let compared = match asked.scripts.is_empty() {
        true => fixed(&asked, &mut all).and_then(|()| random(&asked, &mut all)),
        false => asked.scripts.iter().try_for_each(|path| given(&asked, path, &mut all)),
    };
    if let Err(report) = compared {
        print!("{report}");
        return ExitCode::FAILURE;
    }
    summary(&all, start.elapsed());
    ExitCode::SUCCESS
}

fn asked() -> Result<Asked, String> {
    let seed = SystemTime::UNIX_EPOCH.elapsed().map_or(1, |time| time.as_secs());
    let (size, scripts) = (Size::Small, Vec::new());
    let mut asked = Asked { plain: 16, inputs: 1_000_000, time: None, seed, size, scripts };
    let mut words = std::env::args().skip(1);
    while let Some(word) = words.next() {
        let mut number = || {
            let value = words.next().and_then(|value| value.parse().ok());
            value.ok_or(format!("{word} needs a number"))
        };
        match word.as_str() {
            "--plain" => asked.plain = number()? as usize,
            "--inputs" => asked.inputs = number()?,
            "--seconds" => {
                asked.time = Some(Duration::from_secs(number()?));
                asked.inputs = u64::MAX;
            }
            "--seed" => asked.seed = number()?,
            "--large" => asked.size = Size::Large,
            _ if word.starts_with('-') => return Err(format!("{word} is not known")),
            _ => asked.scripts.push(word),
        }
    }
    Ok(asked)
}

impl Asked {
    /// The programs, with the limits of a size, and the plain engine.
    fn pair(&self, size: Size) -> Pair<Proved> {
        Pair::judged(size, self.plain)
    }
}

/// 01's examples, the limits and children with a wrong parent, of both sizes.
fn fixed(asked: &Asked, all: &mut All) -> Result<(), String> {
    for size in Size::ALL {
        let runs = [sources::bench(size), sources::limits(size), sources::parents()];
        for (title, inputs) in runs.concat() {
            let (inputs, found) = run(asked.pair(size), sources::Fixed::new(&inputs), &mut all.met);
            if let Some(found) = found {
                return Err(report(title, asked, size, inputs, &found));
            }
            lent(title, size, &inputs, 1, all)?;
        }
    }
    Ok(())
}

/// Random scripts, each with a random journal, until there were enough of them.
fn random(asked: &Asked, all: &mut All) -> Result<(), String> {
    println!("seed {}", asked.seed);
    let mut seeds = Random::new(asked.seed);
    let start = Instant::now();
    while all.met.inputs < asked.inputs && asked.time.is_none_or(|time| start.elapsed() < time) {
        let size = if seeds.one_in(LARGE) { Size::Large } else { Size::Small };
        let script = Scripted::new(size, seeds.number());
        let (inputs, found) = run(asked.pair(size), script, &mut all.met);
        let title = format!("seed {}, run {}", asked.seed, all.met.runs);
        if let Some(found) = found {
            return Err(report(&title, asked, size, inputs, &found));
        }
        if seeds.one_in(BESIDE) {
            lent(&title, size, &inputs, seeds.number(), all)?;
        }
        let seed = seeds.number();
        journals::run::<Proved>(size, seed, &mut all.kept)
            .map_err(|how| format!("journal {seed}, {size:?}: {how}\n"))?;
    }
    Ok(())
}

/// The same inputs to the station over a lent store in plain Rust, with damaged stores of a seed.
fn lent(title: &str, size: Size, inputs: &[Input], seed: u64, all: &mut All) -> Result<(), String> {
    beside::run(size, inputs, seed, &mut all.beside).map_err(|how| {
        format!(
            "# {title}, {size:?}, damage {seed}: over a lent store {how}\n{}",
            text::write(inputs)
        )
    })
}

/// A script in a file.
fn given(asked: &Asked, path: &str, all: &mut All) -> Result<(), String> {
    let script = std::fs::read(path).map_err(|error| format!("{path}: {error}\n"))?;
    let inputs = text::read(&script).map_err(|error| format!("{path}: {error}\n"))?;
    match run(asked.pair(asked.size), sources::Fixed::new(&inputs), &mut all.met) {
        (_, None) => lent(path, asked.size, &inputs, 1, all),
        (inputs, Some(found)) => Err(report(path, asked, asked.size, inputs, &found)),
    }
}

/// The failing run, shrunk, as a script with remarks.
fn report(
    title: &str,
    asked: &Asked,
    size: Size,
    inputs: Vec<Input>,
    found: &Difference,
) -> String {
    let count = inputs.len();
    let fails = |inputs: &[Input]| replay(asked.pair(size), inputs).map(|found| found.at);
    let shrunk = shrink::shrink(inputs, fails);
    let how = replay(asked.pair(size), &shrunk).map_or(found.how.clone(), |found| found.how);
    format!(
        "# {title}, {size:?}: the programs differ at input {} of {count}: {}\n\
         # shrunk to {} inputs, of which the last differs: {how}\n{}",
        found.at + 1,
        found.how,
        shrunk.len(),
        text::write(&shrunk)
    )
}

fn summary(all: &All, time: Duration) {
    let All { met, kept, beside } = all;
    let numbers: Vec<String> = met
        .numbers
        .iter()
        .enumerate()
        .filter(|(_, count)| **count > 0)
        .map(|(number, count)| format!("{number}: {count}"))
        .collect();
    let [all, one, commits] = met.effects;
    println!("answers {}", numbers.join(", "));
    println!("the plain engine took {} of the inputs", met.judged);
    println!("messages to all {all}, to one {one}; commits {commits}");
    if kept.journals > 0 {
        let journals::Met { journals, replay: [done, _, stopped], records, torn, .. } = kept;
        println!(
            "{journals} journals: {done} replays done, {stopped} stopped; {records} records, {torn} torn slots"
        );
    }
    let beside::Met { calls, damaged, formed } = beside;
    println!(
        "{calls} calls over a lent store in plain Rust too; {damaged} damaged stores, {formed} of them well formed"
    );
    println!("{} inputs in {} runs, 0 differ, {:.1} s", met.inputs, met.runs, time.as_secs_f64());
}
