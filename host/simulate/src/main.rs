//! Runs a group of stations and draws what happened, or runs many groups and only checks:
//!
//!     simulate [--large] [--envelopes] [--n N] [--d D] [--leaders KIND,KIND..] [--ticks T] [--seed SEED] [--program NAME] [--svg FILE]
//!     simulate [--large] [--envelopes] --many RUNS [--seed SEED] [--program NAME]
//!
//! The kinds are those of stations 1, 2, ..: sound, silent, equivocating, late, splitting, planting, rude,
//! wild. The program is `proved` or `second`. With `--large` every station has the large limits; with
//! `--envelopes` the letters travel in relay envelopes, which changes nothing of a run. The exit is 0 exactly when
//! demand 3 held, and request 12 in the views whose leader is sound and prompt (half of the groups of
//! `--many`).

use programs::{Program, Proved, Second};
use second::random::Random;
use simulate::watch::Breach;
use simulate::{Delays, Fault, Group, Plan, picture};
use station::Size;
use std::process::ExitCode;
use std::time::SystemTime;

/// What was asked for.
struct Asked {
    size: Size,
    n: u8,
    d: u32,
    leaders: String,
    ticks: u32,
    seed: u64,
    program: String,
    svg: Option<String>,
    many: Option<u64>,
    envelopes: bool,
}

fn main() -> ExitCode {
    match asked().and_then(|asked| match asked.program.as_str() {
        "proved" => run::<Proved>(&asked),
        "second" => run::<Second>(&asked),
        other => Err(format!("{other} is no program")),
    }) {
        Ok(()) => ExitCode::SUCCESS,
        Err(why) => {
            eprintln!("{why}");
            ExitCode::FAILURE
        }
    }
}

fn asked() -> Result<Asked, String> {
    let seed = SystemTime::UNIX_EPOCH.elapsed().map_or(1, |time| time.as_secs());
    let (leaders, program) = ("late,planting,silent".into(), "proved".into());
    let (size, svg, many) = (Size::Small, None, None);
    let (n, d, ticks, envelopes) = (7, 2, 88, false);
    let mut asked = Asked { size, n, d, leaders, ticks, seed, program, svg, many, envelopes };
    let mut words = std::env::args().skip(1);
    while let Some(word) = words.next() {
        if word == "--large" {
            asked.size = Size::Large;
            continue;
        }
        if word == "--envelopes" {
            asked.envelopes = true;
            continue;
        }
        let value = words.next().ok_or(format!("{word} needs a value"))?;
        let number = || value.parse::<u64>().map_err(|_| format!("{value} is no number"));
        match word.as_str() {
            "--n" => asked.n = number()? as u8,
            "--d" => asked.d = number()? as u32,
            "--ticks" => asked.ticks = number()? as u32,
            "--seed" => asked.seed = number()?,
            "--many" => asked.many = Some(number()?),
            "--leaders" => asked.leaders = value,
            "--program" => asked.program = value,
            "--svg" => asked.svg = Some(value),
            _ => return Err(format!("{word} is not known")),
        }
    }
    Ok(asked)
}

fn run<P: Program>(asked: &Asked) -> Result<(), String> {
    match asked.many {
        Some(runs) => many::<P>(asked, runs),
        None => one::<P>(asked),
    }
}

/// A group whose letters travel as is asked.
fn group<P: Program>(asked: &Asked, plan: Plan) -> Group<P> {
    let group = Group::new(plan);
    if asked.envelopes { group.in_envelopes() } else { group }
}

/// Says how many envelopes letters travelled in, if they did.
fn tell_envelopes(asked: &Asked, envelopes: u64) {
    if asked.envelopes {
        println!("letters travelled in {envelopes} envelopes");
    }
}

/// One group, drawn if a file is named.
fn one<P: Program>(asked: &Asked) -> Result<(), String> {
    let mut faults = vec![None; asked.n.into()];
    for (station, word) in
        (1..asked.n).zip(asked.leaders.split(',').filter(|word| !word.is_empty()))
    {
        faults[usize::from(station)] = match word {
            "sound" => None,
            _ => Some(word.parse()?),
        };
    }
    if 2 * faults.iter().flatten().count() >= faults.len() {
        return Err("at most f of n = 2f+1 stations may be faulty".into());
    }
    let (size, n, d, seed) = (asked.size, asked.n, asked.d, asked.seed);
    let (delays, lateness, names, prompt) = (Delays::Longest, 3, u32::MAX, false);
    let plan = Plan { size, n, d, faults, delays, lateness, names, prompt, seed };
    let mut group = group::<P>(asked, plan);
    let outcome = group.run_to(asked.ticks);
    if let Some(path) = &asked.svg {
        std::fs::write(path, picture::draw(&group.trace)).map_err(|e| format!("{path}: {e}"))?;
        println!("drawn in {path}");
    }
    outcome.map_err(|breach| breach.to_string())?;
    println!(
        "{} program, n = {}, D = {}, {} ticks: {} blocks in the longest log, {} commits in all, demand 3 held",
        P::TITLE,
        asked.n,
        asked.d,
        asked.ticks,
        group.watch.log().len(),
        group.watch.commits
    );
    tell_envelopes(asked, group.envelopes.unwrap_or(0));
    Ok(())
}

/// Many groups with settings, faults and delays of a seed.
fn many<P: Program>(asked: &Asked, runs: u64) -> Result<(), String> {
    let (size, seed) = (asked.size, asked.seed);
    println!("seed {seed}");
    let mut random = Random::new(seed);
    let (mut commits, mut quits, mut ahead, mut used_up) = (0, 0, 0, 0);
    let (mut calls, mut full, mut overtaken, mut led) = (0, 0, 0, 0);
    let mut envelopes = 0;
    for run in 1..=runs {
        let (plan, ticks) = random_plan(size, &mut random);
        let shown = format!("{plan:?}");
        let mut group = group::<P>(asked, plan);
        match group.run_to(ticks) {
            Ok(()) => {}
            Err(Breach::Full) => full += 1,
            Err(Breach::UsedUp) => overtaken += 1,
            Err(breach) => return Err(format!("run {run} of seed {seed}, {shown}: {breach}")),
        }
        commits += group.watch.commits;
        quits += group.watch.quits;
        ahead += group.watch.ahead;
        used_up += group.watch.used_up;
        calls += group.watch.calls;
        envelopes += group.envelopes.unwrap_or(0);
        led += group.watch.progress.views();
    }
    println!(
        "{} program, {runs} groups of size {size:?} ({full} until a store was full, {overtaken} until a sound vote got 12): {calls} calls, {quits} quits, {commits} commits, {ahead} refusals of messages too far ahead and {used_up} of votes with 12 by sound stations, {led} views with a prompt sound leader, demand 3 and request 12 held",
        P::TITLE
    );
    tell_envelopes(asked, envelopes);
    Ok(())
}

/// A plan with at most f faults, and for how many ticks it is run.
fn random_plan(size: Size, random: &mut Random) -> (Plan, u32) {
    let n = random.pick(&[3, 3, 5, 5, 7]);
    let d = random.pick(&[1, 1, 2, 3]);
    let mut faults = vec![None; n.into()];
    for _ in 0..n / 2 {
        // A leader of the first views, and wild ones above all.
        let station = (1 + random.place(usize::from(n / 2) + 1)) % usize::from(n);
        let fault = random.pick(&Fault::ALL);
        faults[station] = Some(if random.one_in(2) { Fault::Wild } else { fault });
    }
    let delays = random.pick(&[Delays::Longest, Delays::Bounds, Delays::Bounds, Delays::Any]);
    let (names, lateness) = (random.pick(&[1, 2, 3, 40]), 1 + random.below(3) as u32);
    // The larger the stores, the longer: 120 D ticks with the small limits.
    let ticks = 15 * size.statements() as u32 / 16 * d;
    let (seed, prompt) = (random.number(), random.one_in(2));
    (Plan { size, n, d, faults, delays, lateness, names, prompt, seed }, ticks)
}
