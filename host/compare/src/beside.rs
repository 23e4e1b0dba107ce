//! The station over a lent store in plain Rust beside the proved one: both are lent the same bytes, and must answer the
//! same and leave the same, in the whole store and the whole out buffer. One in eight inputs goes to a damaged store
//! too, which may still be well formed.

use programs::shown;
use second::random::Random;
use second::replay::Input;
use station::size::{HEADER, NAME, OPENED, STATEMENT, TALLY};
use station::{Size, ffi};

/// One in so many inputs goes to a damaged store too.
const DAMAGED: u64 = 8;

/// How many calls a damaged store is lent to.
const CALLS: u64 = 8;

/// What was met on the way.
#[derive(Clone, Debug, Default)]
pub struct Met {
    pub calls: u64,
    pub damaged: u64,
    /// Damaged and well formed still.
    pub formed: u64,
}

/// What one of the two is lent.
#[derive(Clone)]
struct Lent {
    store: Vec<u8>,
    out: Vec<u8>,
}

type Fresh = fn(&mut [u8], u64, u64, u64) -> u64;
type Bytes = fn(&mut [u8], &[u8], &mut [u8]) -> u64;
type Tick = fn(&mut [u8], &mut [u8]) -> u64;

/// The four calls of either.
const PROVED: (Fresh, Bytes, Tick, Bytes) = (ffi::fresh, ffi::step, ffi::tick, ffi::offer);
const PLAIN: (Fresh, Bytes, Tick, Bytes) = (lent::fresh, lent::step, lent::tick, lent::offer);

impl Lent {
    /// What a call answers; nothing for a question.
    fn take(&mut self, calls: (Fresh, Bytes, Tick, Bytes), input: &Input) -> Option<u64> {
        let (fresh, step, tick, offer) = calls;
        let Lent { store, out } = self;
        match input {
            Input::Fresh { n, d, own } => Some(fresh(store, *n, *d, *own)),
            Input::Tick => Some(tick(store, out)),
            Input::Step(message) => Some(step(store, message, out)),
            Input::Offer(name) => Some(offer(store, name, out)),
            Input::Display | Input::Certified { .. } => None,
        }
    }
}

/// Both, lent the same.
#[derive(Clone)]
struct Pair {
    size: Size,
    proved: Lent,
    plain: Lent,
}

impl Pair {
    fn new(size: Size, store: Vec<u8>, out: Vec<u8>) -> Pair {
        let proved = Lent { store, out };
        Pair { size, plain: proved.clone(), proved }
    }

    /// Takes an input to both: what they answered, or how they differ.
    fn take(&mut self, input: &Input, met: &mut Met) -> Result<Option<u64>, String> {
        met.calls += 1;
        let (proved, plain) = (self.proved.take(PROVED, input), self.plain.take(PLAIN, input));
        if proved != plain {
            let words = |answer: Option<u64>| {
                answer.map_or("nothing".into(), |a| format!("{} {}", a >> 32, a as u32))
            };
            return Err(format!("proved answers {}, plain {}", words(proved), words(plain)));
        }
        if self.proved.store != self.plain.store {
            let both = self.proved.store.iter().zip(&self.plain.store);
            let at = both.into_iter().position(|(proved, plain)| proved != plain).unwrap_or(0);
            return Err(format!("the stores differ: {}", shown::place(self.size, at)));
        }
        if self.proved.out != self.plain.out {
            return Err("the out buffers differ".into());
        }
        Ok(proved)
    }
}

/// Runs these inputs, with damaged stores of a seed on the way; how both differ, if they do.
pub fn run(size: Size, inputs: &[Input], seed: u64, met: &mut Met) -> Result<(), String> {
    let (store, out) = (vec![0; size.store_length()], vec![0xc3; size.out_length()]);
    let (mut pair, mut random) = (Pair::new(size, store, out), Random::new(seed));
    for (at, input) in inputs.iter().enumerate() {
        if random.one_in(DAMAGED) {
            damaged(&pair, input, &mut random, met)
                .map_err(|how| format!("damaged before input {}: {how}", at + 1))?;
        }
        pair.take(input, met).map_err(|how| format!("input {}: {how}", at + 1))?;
    }
    Ok(())
}

/// Damages the store, and lends it to the input at hand, ticks and offers.
fn damaged(pair: &Pair, input: &Input, random: &mut Random, met: &mut Met) -> Result<(), String> {
    let size = pair.size;
    let (mut store, mut out) = (pair.proved.store.clone(), pair.proved.out.clone());
    for _ in 0..1 + random.below(3) {
        damage(size, &mut store, random);
    }
    match random.below(60) {
        0 => drop(store.pop()),
        1 => store.push(0),
        2 => drop(out.pop()),
        _ => {}
    }
    let mut pair = Pair::new(size, store, out);
    for turn in 0..CALLS {
        let answer = match random.below(4) {
            0 => pair.take(input, met)?,
            1 => pair.take(&Input::Offer(random_name(random)), met)?,
            _ => pair.take(&Input::Tick, met)?,
        };
        if turn == 0 {
            met.damaged += 1;
            match answer.map(|answer| answer >> 32) {
                Some(1 | 2) | None => return Ok(()),
                Some(_) => met.formed += 1,
            }
        }
    }
    Ok(())
}

fn random_name(random: &mut Random) -> Vec<u8> {
    let length = if random.one_in(20) { 31 } else { NAME };
    (0..length).map(|_| random.below(256) as u8).collect()
}

fn number(store: &[u8], at: usize, width: usize) -> u64 {
    store[at..at + width].iter().fold(0, |number, &byte| number << 8 | u64::from(byte))
}

fn put(store: &mut [u8], at: usize, width: usize, value: u64) {
    store[at..at + width].copy_from_slice(&value.to_be_bytes()[8 - width..]);
}

/// Changes something: any byte, or a field so that the store may well be well formed.
fn damage(size: Size, store: &mut [u8], random: &mut Random) {
    // counts may be damaged already
    let statements = number(store, 62, 2).min(size.statements() as u64);
    let tallies = number(store, 64, 2).min(size.tallies() as u64);
    let clock = number(store, 16, 4);
    let logged = number(store, 66, 2).min(size.statements() as u64);
    let record = |random: &mut Random, base: usize, bytes: usize, count: u64| {
        base + bytes * random.below(count.max(1)) as usize
    };
    let (one, two) = (
        record(random, HEADER, STATEMENT, statements),
        record(random, HEADER, STATEMENT, statements),
    );
    let (first, last) = (
        record(random, size.tallies_at(), TALLY, tallies),
        record(random, size.tallies_at(), TALLY, tallies),
    );
    let byte = random.below(256);
    match random.below(21) {
        0 => put(store, random.below(HEADER as u64) as usize, 1, byte),
        1 => put(store, one + random.below(STATEMENT as u64) as usize, 1, byte),
        2 => put(store, first + random.below(TALLY as u64) as usize, 1, byte),
        3 => put(store, random.below(size.store_length() as u64) as usize, 1, byte),
        4 => swap(store, one, two, STATEMENT),
        5 => swap(store, first, last, TALLY),
        6 => store.copy_within(one..one + STATEMENT, two),
        7 => store.copy_within(first..first + TALLY, last),
        // another parent, or another name
        8 => store.copy_within(two + 8..two + 40, one + 44),
        9 => store.copy_within(two + 44..two + 76, one + 44),
        10 => store.copy_within(two + 8..two + 40, one + 8),
        11 => put(store, one + 76, 4, random.below(clock + 4)),
        12 => put(store, one + 76, 4, 1),
        13 => put(store, 16, 4, clock + random.below(30)),
        14 => {
            let quit = random.below(clock + 1);
            put(store, 0, 4, random.pick(&[0, 0, 1, 2, 3, 4 + clock, 4 + quit]));
        }
        15 if logged > 0 => {
            let kept = random.below(logged);
            let at = size.log_at() + NAME * kept as usize;
            store[at..size.store_length()].fill(0);
            put(store, 66, 2, kept);
        }
        16 => put(store, 12, 4, random.below(clock + 1)),
        17 => put(store, 16, 4, random.pick(&[4_000_000_000, 3_999_999_999, 4_000_000_001])),
        18 => opened(size, store, tallies, random),
        19 | 20 => drop(twin(size, store, logged, random)),
        _ => {
            let view = number(store, 8, 4);
            put(store, 8, 4, random.pick(&[view + 1, view.max(1) - 1, 1]));
        }
    }
}

/// Has one author open so many of the tallies that it voted for as may just be, or one more.
fn opened(size: Size, store: &mut [u8], tallies: u64, random: &mut Random) {
    let (author, most) = (random.below(15), u64::from(OPENED) - 1 + random.below(3));
    let all = (0..tallies as usize).map(|i| size.tallies_at() + TALLY * i);
    let voted: Vec<usize> =
        all.filter(|at| number(store, *at + 40, 2) >> author & 1 == 1).collect();
    for at in voted.into_iter().take(most as usize) {
        put(store, at + 42, 1, author + 1);
    }
}

/// Stores another block beside a logged one, and in front of the logged propose above it the same propose with that block as
/// its parent: of the log's names one is then no longer that of the first stored propose with the right parent.
fn twin(size: Size, store: &mut [u8], logged: u64, random: &mut Random) -> Option<()> {
    let (statements, tallies) = (number(store, 62, 2) as usize, number(store, 64, 2) as usize);
    if logged < 2 || statements + 2 > size.statements() || tallies + 1 > size.tallies() {
        return None;
    }
    let height = 1 + random.below(logged - 1) as usize;
    let propose = |store: &[u8], height: usize| {
        let name = size.log_at() + NAME * (height - 1);
        (0..statements).map(|i| HEADER + STATEMENT * i).find(|at| {
            number(store, at + 4, 4) == height as u64
                && store[at + 40] == 2
                && store[at + 8..at + 40] == store[name..name + NAME]
        })
    };
    let (lower, upper) = (propose(store, height)?, propose(store, height + 1)?);
    let (beside, above) = (HEADER + STATEMENT * statements, HEADER + STATEMENT * (statements + 1));
    let tally = size.tallies_at() + TALLY * tallies;
    let other: Vec<u8> = (0..NAME).map(|_| random.below(256) as u8).collect();
    store.copy_within(lower..lower + STATEMENT, beside);
    store[beside + 8..beside + 40].copy_from_slice(&other);
    put(store, beside + 76, 4, 0);
    store.copy_within(beside..beside + 40, tally);
    store.copy_within(upper..upper + STATEMENT, above);
    store[upper + 44..upper + 76].copy_from_slice(&other);
    put(store, 62, 2, statements as u64 + 2);
    put(store, 64, 2, tallies as u64 + 1);
    Some(())
}

fn swap(store: &mut [u8], one: usize, two: usize, bytes: usize) {
    for at in 0..bytes {
        store.swap(one + at, two + at);
    }
}
