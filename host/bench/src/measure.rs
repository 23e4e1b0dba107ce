//! Times of a script, by how full the tables were and by kind of input.

use bench::script::{Input, Kind};
use programs::{Lent, Program, Proved, Second};
use station::{Size, ffi};
use std::hint::black_box;
use std::time::Instant;

/// The limits that the script is for.
pub const SIZE: Size = Size::Small;

/// In how many parts the filling of the tables is divided.
pub const PARTS: usize = 8;

/// The part in which an input falls.
pub fn part(input: &Input) -> usize {
    (input.statements * PARTS / SIZE.statements()).min(PARTS - 1)
}

/// How often the script is run in a round. The least time of an input counts: others who use the machine can only make it
/// longer.
const RUNS: usize = 5;

/// What is measured: the proved station, the check of its store alone, the station over a lent store in plain Rust, the
/// second program.
pub const COLUMNS: usize = 4;
pub const PROVED: usize = 0;
pub const CHECK: usize = 1;
pub const LENT: usize = 2;
pub const SECOND: usize = 3;

/// ns per input, by column.
pub type Times = [f64; COLUMNS];

/// With the check: the proved station's time over that of the station over a lent store in plain Rust.
pub fn with_check(times: &Times) -> f64 {
    times[PROVED] / times[LENT]
}

/// Without it: what is left of the proved station's time over the second program's.
pub fn without_check(times: &Times) -> f64 {
    (times[PROVED] - times[CHECK]) / times[SECOND]
}

/// A script's settings: n, D and the own number.
pub type Settings = (u64, u64, u64);

/// One round: the programs one after the other, so that what slows the machine slows all of them. The times of each part
/// of the filling.
pub fn round(script: &[Input], settings: Settings) -> [Times; PARTS] {
    let least = least(script, settings, RUNS);
    std::array::from_fn(|filling| middle(script, &least, |input| part(input) == filling))
}

/// ns per input of each kind, over the whole script.
pub fn kinds(script: &[Input], settings: Settings, runs: usize) -> [Times; Kind::ALL.len()] {
    let least = least(script, settings, runs);
    Kind::ALL.map(|(kind, _)| middle(script, &least, |input| input.kind == kind))
}

/// The least time of each input over some runs, without the time of looking at the clock.
fn least(script: &[Input], settings: Settings, runs: usize) -> Vec<Times> {
    let mut least = vec![[f64::MAX; COLUMNS]; script.len()];
    let mut ticks = vec![[f64::MAX; 2]; script.len()];
    for _ in 0..runs {
        let mut checks = Vec::with_capacity(script.len());
        let proved = each(script, settings, |program, _| checks.push(check(program)));
        let lent = each(script, settings, |_: &mut Lent, _| ());
        let second = each(script, settings, |_: &mut Second, _| ());
        for (place, least) in least.iter_mut().enumerate() {
            lessen(least, [proved[place], checks[place], lent[place], second[place]]);
        }
        tick_and_refuse(script, settings, &mut ticks);
    }
    for ((input, times), [ticked, refused]) in script.iter().zip(&mut least).zip(ticks) {
        if input.kind == Kind::Tick {
            times[CHECK] = times[PROVED] - (ticked - refused);
        }
    }
    let nothing = (0..1000).map(|_| timed(|| ())).fold(f64::MAX, f64::min);
    least.into_iter().map(|times| times.map(|time| time - nothing)).collect()
}

/// The time of the check alone: of a message of no bytes, which is refused right after it. Another such call comes before.
fn check(program: &mut Proved) -> f64 {
    black_box(program.step(&[]).number);
    timed(|| program.step(&[]).number)
}

/// How often a tick is made in a run where what it adds is measured.
const TURNS: usize = 4;

/// The least times by which what each tick adds to the check of its store is told: the same store is ticked, and as that of
/// a stopped station refused right after the check. Both lie at one place, so that no other place in memory makes a
/// difference.
fn tick_and_refuse(script: &[Input], settings: Settings, least: &mut [[f64; 2]]) {
    let mut program = fresh::<Proved>(settings);
    let mut place = vec![0; SIZE.store_length()];
    let mut out = vec![0; SIZE.out_length()];
    for (input, least) in script.iter().zip(least) {
        if input.kind == Kind::Tick {
            let stopped = program.stopped();
            for _ in 0..TURNS {
                let times = [&program, &stopped].map(|program| {
                    place.copy_from_slice(program.station().store());
                    black_box(ffi::step(&mut place, &[], &mut out));
                    timed(|| ffi::tick(&mut place, &mut out))
                });
                lessen(least, times);
            }
        }
        black_box(input.call.give(&mut program).number);
    }
}

/// The times per input of some of the inputs.
fn middle(script: &[Input], least: &[Times], counts: impl Fn(&Input) -> bool) -> Times {
    let (mut times, mut inputs) = ([0.0; COLUMNS], 0.0);
    for (_, least) in script.iter().zip(least).filter(|(input, _)| counts(input)) {
        inputs += 1.0;
        for (times, ns) in times.iter_mut().zip(least) {
            *times += ns;
        }
    }
    times.map(|time| time / inputs)
}

/// The lesser of each two.
fn lessen<const N: usize>(least: &mut [f64; N], times: [f64; N]) {
    for (least, time) in least.iter_mut().zip(times) {
        *least = least.min(time);
    }
}

fn fresh<P: Program>(settings: Settings) -> P {
    P::fresh(SIZE, settings.0, settings.1, settings.2).expect("good settings")
}

/// The time of each input by itself. What is asked for comes before, then a message that is refused after the check, so that
/// code and store are near to the processor.
fn each<P: Program>(
    script: &[Input],
    settings: Settings,
    mut before: impl FnMut(&mut P, &Input),
) -> Vec<f64> {
    let mut program = fresh::<P>(settings);
    let times = script.iter().map(|input| {
        before(&mut program, input);
        black_box(program.step(&[]).number);
        timed(|| input.call.give(&mut program).number)
    });
    times.collect()
}

fn timed<T>(deed: impl FnOnce() -> T) -> f64 {
    let start = Instant::now();
    black_box(deed());
    start.elapsed().as_nanos() as f64
}
