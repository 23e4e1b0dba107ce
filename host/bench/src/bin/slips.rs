//! Prints how long the check of a slip takes, as docs/SPEED.md has it: `slips [ROUNDS]`. The proved
//! `slip_check` and the second program check the same slip in one run; the least time of the rounds counts.

use station::{GENESIS, Message, Name, ffi};
use std::hint::black_box;
use std::time::Instant;

const HEIGHTS: [u32; 3] = [1, 16, 128];
const N: u64 = 3;

fn main() {
    let rounds = std::env::args().nth(1).and_then(|word| word.parse().ok()).unwrap_or(2_000);
    println!("| entries | proved, µs | second, µs | ratio |");
    println!("|---|---|---|---|");
    for height in HEIGHTS {
        let slip = slip(height);
        let [mut proved, mut second] = [f64::MAX; 2];
        for _ in 0..rounds {
            proved = proved.min(timed(&slip, height, ffi::slip_check));
            second = second.min(timed(&slip, height, second::slip::check));
        }
        println!("| {height} | {proved:.2} | {second:.2} | {:.2} |", proved / second);
    }
}

/// The µs that one check takes, of ten together.
fn timed(slip: &[u8], height: u32, check: fn(u64, u64, &[u8]) -> u64) -> f64 {
    const TOGETHER: u32 = 10;
    let start = Instant::now();
    for _ in 0..TOGETHER {
        assert_eq!(check(0, black_box(N), black_box(slip)), u64::from(height));
    }
    start.elapsed().as_secs_f64() * 1e6 / f64::from(TOGETHER)
}

/// A slip of so many entries.
fn slip(height: u32) -> Vec<u8> {
    let name = |height: u32| -> Name {
        if height == 0 {
            GENESIS
        } else {
            std::array::from_fn(|byte| (height as usize * 7 + byte) as u8 | 1)
        }
    };
    let mut bytes = [&[0x40, 0, 32][..], &name(height)].concat();
    for high in (1..=height).rev() {
        bytes.extend([0x41, 0, 97]);
        let message = Message::Propose {
            view: 1,
            height: high,
            name: name(high),
            parent: name(high - 1),
            mask: 3,
            author: 1,
        };
        bytes.extend(message.encode());
    }
    bytes
}
