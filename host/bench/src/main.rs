//! Prints the measured part of docs/SPEED.md: `bench [--svg FILE] [ROUNDS]`. With `--svg` it draws the cost against the
//! filling for the smaller group.

mod measure;
mod plot;

use bench::script::{self, Input, Kind};
use measure::{
    CHECK, LENT, PARTS, PROVED, SECOND, SIZE, Settings, Times, with_check, without_check,
};
use std::process::Command;

const D: u32 = 2;

/// What the tables are of.
fn method() -> String {
    let (statements, tallies) = (SIZE.statements(), SIZE.tallies());
    let others = tallies / statements - 1;
    let (views, blocks) = (script::VIEWS, script::blocks(SIZE));
    let logged = views * blocks;
    format!(
        "\
![ns per input against the statements held](speed.svg)

Three programs take the same script in one run, each input through the call that a host makes: four views, {blocks} blocks in
each, every statement handed on and voted for by every other station, {others} statuses of made-up names with each, until all
{statements} statements and {tallies} tallies are in use and {logged} blocks are logged. All are compiled at the highest level, for no
processor in particular, and none together with what measures it; in Rust loops begin at multiples of 64, without which
the linker's order moves the second program's times by a third.

- `proved` is the proved station. Every call of it first looks at its whole store; that check is measured by a message of
  no bytes, which is refused right after it. Of a tick, which adds little to its check, what it adds is measured instead:
  the same store at the same place is ticked, and as that of a stopped station refused right after the check, in turn.
- `lent` is a station over the same lent store in plain Rust (host/lent). It holds nothing between calls, checks the
  store as fully on each call, by the same method, and does what the rules say on its bytes. **With the check** is the
  ratio of proved to lent.
- `second` is the second program (host/second), which keeps its state in memory and has no store to check. **Without the
  check** is the ratio of proved, less its check, to second.

Each input is timed by itself, and its least time counts, since others who use the machine can only make it longer. A
call that is refused after the check goes before what is timed, so that code and store are as near to the processor
for one program as for another, and for the check as for the whole call. A round is five runs of each program in turn;
given are the middle of the rounds and, with ratios, the quarters around it. Instructions are valgrind's count, without the
time that a cache or a wrong guess of a branch takes; they don't depend on the day. `tools/speed` makes all of it."
    )
}

fn main() {
    let (mut rounds, mut svg, mut words) = (15, None, std::env::args().skip(1));
    while let Some(word) = words.next() {
        match word.as_str() {
            "--svg" => svg = words.next(),
            _ => rounds = word.parse().expect("bench [--svg FILE] [ROUNDS]"),
        }
    }
    println!("{}\n\nMachine: {}. {rounds} rounds, D = {D}.", method(), machine());
    for (n, own) in [(3, 1), (15, 4)] {
        let script = script::script(SIZE, n, D, own);
        let settings = (n.into(), D.into(), own.into());
        measure::round(&script, settings);
        let measured: Vec<_> = (0..rounds).map(|_| measure::round(&script, settings)).collect();
        by_filling(n, &script, &measured);
        by_kind(n, &script, settings, rounds);
        if let Some(path) = svg.take() {
            let middles = std::array::from_fn(|part| middles(measured.iter().map(|r| r[part])));
            std::fs::write(path, plot::svg(n, SIZE.statements(), &middles)).expect("a file");
        }
    }
}

/// The processor's name, as `lscpu` has it.
fn machine() -> String {
    let about = Command::new("lscpu").env("LC_ALL", "C").output();
    let about = about.map(|said| String::from_utf8_lossy(&said.stdout).into_owned());
    let about = about.unwrap_or_default();
    let name = about.lines().find_map(|line| line.strip_prefix("Model name:"));
    format!("{}, {}", name.map_or("unknown", str::trim), std::env::consts::ARCH)
}

/// The middle value, and the quarters around it.
fn spread(mut values: Vec<f64>) -> (f64, f64, f64) {
    values.sort_by(f64::total_cmp);
    let at = |share: f64| values[((values.len() - 1) as f64 * share).round() as usize];
    (at(0.5), at(0.25), at(0.75))
}

/// The middle of each column.
fn middles(rounds: impl Iterator<Item = Times>) -> Times {
    let rounds: Vec<Times> = rounds.collect();
    std::array::from_fn(|column| spread(rounds.iter().map(|times| times[column]).collect()).0)
}

/// A ratio with its spread.
fn ratio(rounds: &[Times], of: fn(&Times) -> f64) -> String {
    let (middle, low, high) = spread(rounds.iter().map(of).collect());
    format!("{middle:.2} ({low:.2}–{high:.2})")
}

/// A table over the filling of the tables, with a last line for the whole script.
fn by_filling(n: u8, script: &[Input], rounds: &[[Times; PARTS]]) {
    println!("\n### n = {n}: {} inputs, by how full the tables are\n", script.len());
    println!(
        "| statements held | proved, ns | of it the check | lent, ns | with the check | second, ns | without the check |"
    );
    println!("|---|---|---|---|---|---|---|");
    let room = SIZE.statements() / PARTS;
    for part in 0..PARTS {
        let title = format!("{} to {}", part * room, (part + 1) * room - 1);
        let weights = std::array::from_fn(|other| f64::from(u8::from(other == part)));
        line(&title, weights, rounds);
    }
    let mut weights = [0.0; PARTS];
    for input in script {
        weights[measure::part(input)] += 1.0;
    }
    line("whole script", weights.map(|weight| weight / script.len() as f64), rounds);
}

/// A line for parts of the script, weighted.
fn line(title: &str, weights: [f64; PARTS], rounds: &[[Times; PARTS]]) {
    let whole = |parts: &[Times; PARTS]| -> Times {
        let total = |column: usize| parts.iter().zip(weights).map(move |(t, w)| t[column] * w);
        std::array::from_fn(|column| total(column).sum())
    };
    let rounds: Vec<Times> = rounds.iter().map(whole).collect();
    let middle = middles(rounds.iter().copied());
    println!(
        "| {title} | {:.0} | {:.0} | {:.0} | {} | {:.0} | {} |",
        middle[PROVED],
        middle[CHECK],
        middle[LENT],
        ratio(&rounds, with_check),
        middle[SECOND],
        ratio(&rounds, without_check)
    );
}

/// A table by kind of input.
fn by_kind(n: u8, script: &[Input], settings: Settings, rounds: usize) {
    println!("\n### n = {n}: by kind of input\n");
    println!(
        "| input | how many | proved, ns | of it the check | lent, ns | with the check | second, ns | without the check |"
    );
    println!("|---|---|---|---|---|---|---|---|");
    let measured = measure::kinds(script, settings, 3 * rounds);
    for ((kind, title), times) in Kind::ALL.into_iter().zip(measured) {
        let count = script.iter().filter(|input| input.kind == kind).count();
        println!(
            "| {title} | {count} | {:.0} | {:.0} | {:.0} | {:.2} | {:.0} | {:.2} |",
            times[PROVED],
            times[CHECK],
            times[LENT],
            with_check(&times),
            times[SECOND],
            without_check(&times)
        );
    }
}
