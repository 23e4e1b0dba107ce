//! Prints how long a replay takes, as docs/SPEED.md has it: `replays [ROUNDS]`. Journals of up to 100,000
//! records go to the proved `journal_replay` and to the second program, in one run; the least time of the
//! rounds counts, without what others had of the processor, since they can only make it longer. A shorter
//! journal has as many more rounds as it is shorter.

use bench::script::{self, Call};
use bench::waited;
use programs::{Journals, Proved, Second};
use station::{SLOT, Size};
use std::hint::black_box;
use std::time::Instant;

const SIZE: Size = Size::Small;
const LENGTHS: [usize; 4] = [12_500, 25_000, 50_000, 100_000];
const N: u8 = 3;
const D: u32 = 2;
const OWN: u8 = 1;

fn main() {
    let rounds = std::env::args().nth(1).and_then(|word| word.parse().ok()).unwrap_or(5);
    println!("| journal | records | proved, records/s | second, records/s | ratio of times |");
    println!("|---|---|---|---|---|");
    for (title, journal) in [("ticks alone", ticks as fn(usize) -> Vec<u8>), ("four views", views)]
    {
        for length in LENGTHS {
            let journal = journal(length);
            assert_eq!(journal.len(), length * SLOT);
            let [proved, second] = least(&journal, rounds * LENGTHS[LENGTHS.len() - 1] / length);
            println!(
                "| {title} | {length} | {:.0} | {:.0} | {:.2} |",
                length as f64 / proved,
                length as f64 / second,
                proved / second
            );
        }
    }
}

/// The least seconds of each program.
fn least(journal: &[u8], rounds: usize) -> [f64; 2] {
    let mut least = [f64::MAX; 2];
    for _ in 0..rounds {
        let times = [replay::<Proved>(journal), replay::<Second>(journal)];
        for (least, time) in least.iter_mut().zip(times) {
            *least = least.min(time);
        }
    }
    least
}

/// The seconds that one replay into a fresh station takes.
fn replay<P: Journals>(journal: &[u8]) -> f64 {
    let mut program = P::fresh(SIZE, N.into(), D.into(), OWN.into()).expect("good settings");
    let (mut out, slots) = (vec![0; SIZE.out_length()], journal.len() / SLOT);
    let mut report = vec![0; 12 + 4 * slots];
    let (start, before) = (Instant::now(), waited());
    let answer = black_box(program.replay(journal, &mut out, &mut report));
    let waited = waited() - before;
    let time = start.elapsed().as_secs_f64();
    assert_eq!(answer, slots as u64);
    time - waited
}

/// So many ticks, of a station that hears nothing.
fn ticks(records: usize) -> Vec<u8> {
    let mut journal = Writer::default();
    for _ in 0..records {
        journal.put(&Call::Tick);
    }
    journal.bytes
}

/// The script of `bench`, with each message so often that there are so many records. However long it is,
/// both tables fill alike on the way.
fn views(records: usize) -> Vec<u8> {
    let inputs = script::script(SIZE, N, D, OWN);
    let is_message = |call: &Call| matches!(call, Call::Step(_));
    let messages = inputs.iter().filter(|input| is_message(&input.call)).count();
    let mut more = records - inputs.len();
    let mut left = messages;
    let mut journal = Writer::default();
    for input in &inputs {
        journal.put(&input.call);
        if is_message(&input.call) {
            let times = more / left;
            (0..times).for_each(|_| journal.put(&input.call));
            (more, left) = (more - times, left - 1);
        }
    }
    journal.bytes
}

/// A journal under way.
#[derive(Default)]
struct Writer {
    bytes: Vec<u8>,
    records: u64,
}

impl Writer {
    fn put(&mut self, call: &Call) {
        let (kind, input): (u64, &[u8]) = match call {
            Call::Tick => (1, &[]),
            Call::Offer(name) => (2, name),
            Call::Step(message) => (3, message),
        };
        let mut slot = [0; SLOT];
        assert_eq!(Second::put(&mut slot, self.records, kind, input), SLOT as u64);
        self.bytes.extend(slot);
        self.records += 1;
    }
}
