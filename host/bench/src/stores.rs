//! Well-formed stores to check: of one view, as full as asked, friendly and hostile to a check that looks records up.

use lent::check::chain;
use station::Size;
use station::size::{HEADER as STATEMENTS, NAME, STATEMENT, TALLY};

type Name = [u8; NAME];

/// How the names of a store are chosen.
#[derive(Clone, Copy, PartialEq, Eq)]
pub enum Names {
    /// Counted from 1.
    Counted,
    Random,
    /// Random in the first word alone.
    EndAlike,
    /// Random in the last word alone.
    BeginAlike,
    /// Random, and all on one chain of the check at this clock.
    Crafted(u32),
}

/// Which blocks a store holds, and in which order.
#[derive(Clone, Copy, PartialEq, Eq)]
pub enum Blocks {
    /// A chain, all of it logged; the tallies besides are of other heights.
    Chain,
    /// The same from the last record to the first.
    Reversed,
    /// Every block is of height 1, none logged.
    OneHeight,
    /// One block of height 2 with many parents, none logged.
    ManyParents,
}

fn put(s: &mut [u8], at: usize, width: usize, value: usize) {
    s[at..at + width].copy_from_slice(&value.to_be_bytes()[8 - width..]);
}

fn random(i: usize, word: usize) -> [u8; 8] {
    let mut x = ((i * 8 + word + 1) as u64).wrapping_mul(0x9e37_79b9_7f4a_7c15);
    x = (x ^ x >> 30).wrapping_mul(0xbf58_476d_1ce4_e5b9);
    x = (x ^ x >> 27).wrapping_mul(0x94d0_49bb_1331_11eb);
    (x ^ x >> 31).to_be_bytes()
}

fn all_random(i: usize) -> Name {
    let mut name = [0; NAME];
    for word in 0..4 {
        name[8 * word..8 * word + 8].copy_from_slice(&random(i, word));
    }
    name
}

impl Names {
    /// The name of the block of this height that has this number; genesis has none.
    fn of(self, height: usize, i: usize) -> Name {
        let mut name = [0; NAME];
        if height == 0 {
            return name;
        }
        match self {
            Names::Counted => put(&mut name, 24, 8, i + 1),
            Names::Random => name = all_random(i),
            Names::EndAlike => name[..8].copy_from_slice(&random(i, 0)),
            Names::BeginAlike => name[24..].copy_from_slice(&random(i, 0)),
            Names::Crafted(clock) => {
                let key = 1 << 32 | height as u64;
                let tries = (0..).map(|t| all_random(i << 20 | t));
                return tries.into_iter().find(|n| chain(clock, key, n) == 0).unwrap();
            }
        }
        name
    }
}

/// A store of this size with so many statements and tallies, at a clock.
pub fn store(
    size: Size,
    statements: usize,
    tallies: usize,
    names: Names,
    blocks: Blocks,
    clock: u32,
) -> Vec<u8> {
    let mut s = vec![0; size.store_length()];
    s[4] = 3;
    put(&mut s, 5, 2, 2);
    s[7] = 2;
    put(&mut s, 8, 4, 1);
    put(&mut s, 16, 4, clock as usize);
    // height, name and parent of each statement, height and name of each tally
    let (mut said, mut kept) = (Vec::new(), Vec::new());
    if tallies > 0 {
        kept.push((0, names.of(0, 0)));
    }
    for i in 0..statements {
        let (height, name, parent) = match blocks {
            Blocks::Chain | Blocks::Reversed => {
                (i + 1, names.of(i + 1, i), if i == 0 { [0; NAME] } else { names.of(i, i - 1) })
            }
            Blocks::OneHeight => (1, names.of(1, i), [0; NAME]),
            Blocks::ManyParents => (2, names.of(2, 1 << 19), names.of(1, i)),
        };
        said.push((height, name, parent));
        if blocks == Blocks::ManyParents {
            kept.push((1, parent));
        } else {
            kept.push((height, name));
        }
    }
    if blocks == Blocks::ManyParents {
        kept.push((2, names.of(2, 1 << 19)));
    }
    for i in kept.len()..tallies {
        let height = if blocks == Blocks::OneHeight { 1 } else { 1000 + i };
        kept.push((height, names.of(height, 10_000 + i)));
    }
    if blocks == Blocks::Reversed {
        said.reverse();
        kept.reverse();
    }
    for (i, (height, name, parent)) in said.iter().enumerate() {
        let at = STATEMENTS + STATEMENT * i;
        put(&mut s, at, 4, 1);
        put(&mut s, at + 4, 4, *height);
        s[at + 8..at + 40].copy_from_slice(name);
        put(&mut s, at + 40, 2, 0x0201);
        put(&mut s, at + 42, 2, 3);
        s[at + 44..at + 76].copy_from_slice(parent);
        if matches!(blocks, Blocks::Chain | Blocks::Reversed) {
            let at = size.log_at() + NAME * (height - 1);
            s[at..at + NAME].copy_from_slice(name);
        }
    }
    for (i, (height, name)) in kept.iter().enumerate() {
        let at = size.tallies_at() + TALLY * i;
        put(&mut s, at, 4, 1);
        put(&mut s, at + 4, 4, *height);
        s[at + 8..at + 40].copy_from_slice(name);
        put(&mut s, at + 40, 2, 3);
        put(&mut s, at + 43, 4, 1);
    }
    put(&mut s, 62, 2, said.len());
    put(&mut s, 64, 2, kept.len());
    let logged = matches!(blocks, Blocks::Chain | Blocks::Reversed);
    put(&mut s, 66, 2, if logged { said.len() } else { 0 });
    s
}
