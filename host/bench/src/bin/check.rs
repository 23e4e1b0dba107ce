//! How long the check of a store takes, in the proved station and written again in plain Rust by the same method: of a
//! small and of a large one that is empty, half full, full, and full of records that were chosen to make it slow.
//! An empty message is refused with 4 right after the check, so the call's time is the check's. Both checks are then
//! held against each other on stores with one byte changed.

use bench::stores::{Blocks, Names, store};
use lent::check::well_formed;
use station::{Refusal, Size, Station};
use std::hint::black_box;
use std::time::Instant;

/// The least time of one call, in microseconds.
fn least(mut call: impl FnMut() -> bool) -> f64 {
    let mut best = f64::MAX;
    for _ in 0..60 {
        let start = Instant::now();
        for _ in 0..20 {
            black_box(call());
        }
        best = best.min(start.elapsed().as_secs_f64() / 20.0 * 1e6);
    }
    best
}

/// Every so many bytes of a full large store one is changed, since its check takes long: a number that goes round all
/// places of a record.
const APART: usize = 61;

/// The clock of the stores.
const CLOCK: u32 = 1_000;

fn main() {
    println!("| store | proved, µs | plain Rust, µs | ratio |\n|---|---|---|---|");
    for size in Size::ALL {
        let (statements, tallies) = (size.statements(), size.tallies());
        let full = |names, blocks, clock| store(size, statements, tallies, names, blocks, clock);
        let crafted = Names::Crafted(CLOCK);
        for (what, s) in [
            ("empty", store(size, 0, 0, Names::Random, Blocks::Chain, CLOCK)),
            (
                "half full",
                store(size, statements / 2, tallies / 2, Names::Random, Blocks::Chain, CLOCK),
            ),
            ("full", full(Names::Random, Blocks::Chain, CLOCK)),
            ("full, names counted", full(Names::Counted, Blocks::Chain, CLOCK)),
            ("full, names that end alike", full(Names::EndAlike, Blocks::Chain, CLOCK)),
            ("full, names that begin alike", full(Names::BeginAlike, Blocks::Chain, CLOCK)),
            ("full, one view and height", full(Names::Random, Blocks::OneHeight, CLOCK)),
            (
                "full, that and names that end alike",
                full(Names::EndAlike, Blocks::OneHeight, CLOCK),
            ),
            ("full, one block with many parents", full(Names::Random, Blocks::ManyParents, CLOCK)),
            ("full, from last to first", full(Names::Random, Blocks::Reversed, CLOCK)),
            ("full, names crafted for the clock", full(crafted, Blocks::Chain, CLOCK)),
            ("full, the same a tick later", full(crafted, Blocks::Chain, CLOCK + 1)),
        ] {
            let mut station = Station::from_store(&s).expect("a store of ours");
            assert!(well_formed(size, &s));
            let proved = least(|| station.step(&[]).is_ok());
            let plain = least(|| well_formed(size, black_box(&s)));
            let ratio = proved / plain;
            println!("| {size:?}, {what} | {proved:.2} | {plain:.2} | {ratio:.2} |");
        }
    }
    let (mut seed, mut tried, mut differ) = (1u64, 0, 0);
    for size in Size::ALL {
        let of = |statements, tallies, names| {
            store(size, statements, tallies, names, Blocks::Chain, CLOCK)
        };
        let full = of(size.statements(), size.tallies(), Names::Random);
        let apart = if size == Size::Large { APART } else { 1 };
        let few = of(9, 20, Names::EndAlike);
        for (base, apart) in [(of(0, 0, Names::Random), 1), (few, 1), (full, apart)] {
            let mut s = base.clone();
            for at in (0..base.len()).step_by(apart) {
                seed = seed
                    .wrapping_mul(6_364_136_223_846_793_005)
                    .wrapping_add(1_442_695_040_888_963_407);
                s[at] = match seed >> 62 {
                    0 => s[at].wrapping_add(1),
                    1 => s[at].wrapping_sub(1),
                    2 => 0,
                    _ => (seed >> 40) as u8,
                };
                let proved = !matches!(Station::from_store(&s), Err(Refusal::Store));
                tried += 1;
                differ += usize::from(proved != well_formed(size, &s));
                s[at] = base[at];
            }
        }
    }
    println!("\n{tried} stores with one byte changed, {differ} judged differently");
    assert_eq!(differ, 0);
}
