//! Prints how long a call of the plain engine takes, as docs/SPEED.md has it: `lists [ROUNDS]`. Its list holds
//! so many inputs, and one tick more is handed over, each round to the same list. The least time of the rounds
//! counts, without what others had of the processor, since they can only make it longer.

use bench::script::{self, Call};
use bench::waited;
use station::{Plain, Size};
use std::hint::black_box;
use std::time::Instant;

const LENGTHS: [usize; 3] = [100, 500, 1_000];
const N: u8 = 3;
const D: u32 = 2;
const OWN: u8 = 1;

fn main() {
    let rounds = std::env::args().nth(1).and_then(|word| word.parse().ok()).unwrap_or(20);
    let views: Vec<Call> =
        script::script(Size::Small, N, D, OWN).into_iter().map(|input| input.call).collect();
    let ticks = vec![Call::Tick; views.len()];
    println!("| list | inputs | a call, µs | per input, µs | all inputs, s |");
    println!("|---|---|---|---|---|");
    for (title, inputs) in [("ticks alone", ticks), ("four views", views)] {
        for length in LENGTHS {
            let (plain, whole) = held(&inputs[..length]);
            let call = least(&plain, rounds);
            println!(
                "| {title} | {length} | {:.0} | {:.1} | {whole:.1} |",
                call * 1e6,
                call * 1e6 / length as f64
            );
        }
    }
}

/// A list that holds these inputs, with room for one more, and the seconds that it took to hand them over.
fn held(inputs: &[Call]) -> (Plain, f64) {
    let room = inputs.len() + 1;
    let mut plain = Plain::fresh(room, N.into(), D.into(), OWN.into()).expect("good settings");
    let (start, before) = (Instant::now(), waited());
    for input in inputs {
        let answer = match input {
            Call::Tick => plain.tick(),
            Call::Step(message) => plain.step(message),
            Call::Offer(name) => plain.offer(name),
        };
        answer.expect("an input that is kept");
    }
    let waited = waited() - before;
    (plain, start.elapsed().as_secs_f64() - waited)
}

/// The least seconds of a tick behind these inputs.
fn least(plain: &Plain, rounds: usize) -> f64 {
    let mut least = f64::MAX;
    for _ in 0..rounds {
        let mut plain = plain.clone();
        let (start, before) = (Instant::now(), waited());
        black_box(plain.tick().expect("room for one more").bytes());
        let waited = waited() - before;
        least = least.min(start.elapsed().as_secs_f64() - waited);
    }
    least
}
