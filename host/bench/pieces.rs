//! The two inner pieces by themselves: the search of a tally by its block and the count of a mask's voters, as they were at
//! an older commit, as they are, and written in Rust. `tools/pieces` builds it, with both archives, and runs it.

#[path = "../station/src/size.rs"]
#[allow(dead_code)]
mod size;

use size::{Size, TALLY};
use std::hint::black_box;
use std::time::Instant;

const NONE: u64 = u64::MAX;

extern "C" {
    fn older_seek(
        store: *const u8,
        length: usize,
        from: usize,
        end: usize,
        view: u32,
        height: u32,
        name: *const u8,
        name_length: usize,
    ) -> u64;
    fn newer_seek(
        store: *const u8,
        length: usize,
        from: usize,
        end: usize,
        view: u32,
        height: u32,
        name: *const u8,
        name_length: usize,
    ) -> u64;
    fn older_quorum(n: u64, mask: u16) -> u64;
    fn newer_quorum(n: u64, mask: u16) -> u64;
}

type Seek = unsafe extern "C" fn(*const u8, usize, usize, usize, u32, u32, *const u8, usize) -> u64;
type Quorum = unsafe extern "C" fn(u64, u16) -> u64;

fn word(s: &[u8]) -> u64 {
    u64::from_le_bytes(s[..8].try_into().unwrap())
}

/// The same search in Rust: sixteen records at a turn by eight bytes of each, then those with the same eight whole.
#[no_mangle]
unsafe extern "C" fn rust_seek(
    store: *const u8,
    length: usize,
    from: usize,
    end: usize,
    view: u32,
    height: u32,
    name: *const u8,
    name_length: usize,
) -> u64 {
    let store = std::slice::from_raw_parts(store, length);
    let name = std::slice::from_raw_parts(name, name_length);
    let size = if length == Size::Large.store_length() { Size::Large } else { Size::Small };
    if length != size.store_length() || size.tallies() < end || name.len() < 32 {
        return NONE;
    }
    let mut block = [0; 40];
    block[..4].copy_from_slice(&view.to_be_bytes());
    block[4..8].copy_from_slice(&height.to_be_bytes());
    block[8..].copy_from_slice(&name[..32]);
    let mark = word(&block[4..]);
    let base = size.tallies_at();
    let mut i = from;
    while i < end {
        let at = base + TALLY * i;
        if 16 <= end - i {
            let turn: &[u8; 16 * TALLY] = store[at..at + 16 * TALLY].try_into().unwrap();
            match (0..16).find(|k| word(&turn[TALLY * k + 4..]) == mark) {
                Some(k) => i += k,
                None => {
                    i += 16;
                    continue;
                }
            }
        } else if word(&store[at + 4..]) != mark {
            i += 1;
            continue;
        }
        let record: &[u8; 40] = store[base + TALLY * i..][..40].try_into().unwrap();
        if *record == block {
            return i as u64;
        }
        i += 1;
    }
    NONE
}

#[no_mangle]
extern "C" fn rust_quorum(n: u64, mask: u16) -> u64 {
    u64::from(n / 2 < u64::from(mask.count_ones()))
}

/// Where one case's count ends.
#[no_mangle]
#[inline(never)]
extern "C" fn case_ends() {
    black_box(());
}

const SEEKS: [Seek; 3] = [older_seek, newer_seek, rust_seek];
const QUORUMS: [Quorum; 3] = [older_quorum, newer_quorum, rust_quorum];
const MANY: usize = 100;

/// What a table's records are like.
const KINDS: [&str; 5] = [
    "names random, heights apart",
    "names random, one view and height",
    "names end alike, heights apart",
    "names end alike, one view and height",
    "names begin alike, one view and height",
];

struct Case {
    label: String,
    store: Vec<u8>,
    end: usize,
    view: u32,
    height: u32,
    name: [u8; 32],
    answer: u64,
}

fn next(seed: &mut u64) -> u64 {
    *seed ^= *seed << 13;
    *seed ^= *seed >> 7;
    *seed ^= *seed << 17;
    *seed
}

fn block(kind: usize, i: usize, seed: &mut u64) -> (u32, u32, [u8; 32]) {
    let mut name = [7; 32];
    match kind {
        0 | 1 => name.iter_mut().for_each(|b| *b = next(seed) as u8),
        2 | 3 => name[..2].copy_from_slice(&(i as u16 + 1).to_be_bytes()),
        _ => name[30..].copy_from_slice(&(i as u16 + 1).to_be_bytes()),
    }
    let apart = kind == 0 || kind == 2;
    (if apart { 1 + i as u32 / 64 } else { 1 }, if apart { i as u32 + 1 } else { 5 }, name)
}

fn cases() -> Vec<Case> {
    let mut all = Vec::new();
    for (kind, told) in KINDS.iter().enumerate() {
        for end in [16, 128, 256, 512] {
            let size = if end <= Size::Small.tallies() { Size::Small } else { Size::Large };
            let mut store = vec![0; size.store_length()];
            let mut seed = 0x9e37_79b9_7f4a_7c15;
            let blocks: Vec<_> = (0..=end).map(|i| block(kind, i, &mut seed)).collect();
            for (i, (view, height, name)) in blocks[..end].iter().enumerate() {
                let at = size.tallies_at() + TALLY * i;
                store[at..at + 4].copy_from_slice(&view.to_be_bytes());
                store[at + 4..at + 8].copy_from_slice(&height.to_be_bytes());
                store[at + 8..at + 40].copy_from_slice(name);
            }
            for (place, i) in
                [("first", 0), ("in the middle", end / 2), ("last", end - 1), ("absent", end)]
            {
                let (view, height, name) = blocks[i];
                let answer = if i < end { i as u64 } else { NONE };
                all.push(Case {
                    label: format!("| {told} | {end} | {place} |"),
                    store: store.clone(),
                    end,
                    view,
                    height,
                    name,
                    answer,
                });
            }
        }
    }
    all
}

fn seek(which: Seek, c: &Case) -> u64 {
    let which = black_box(which);
    unsafe {
        which(c.store.as_ptr(), c.store.len(), 0, c.end, c.view, c.height, c.name.as_ptr(), 32)
    }
}

/// The least of many times, in nanoseconds of one call, of three in turn.
fn times(mut calls: [Box<dyn FnMut() + '_>; 3]) -> [f64; 3] {
    let mut least = [f64::MAX; 3];
    for _ in 0..60 {
        for (call, least) in calls.iter_mut().zip(&mut least) {
            let began = Instant::now();
            for _ in 0..MANY {
                call();
            }
            *least = least.min(began.elapsed().as_nanos() as f64 / MANY as f64);
        }
    }
    least
}

fn masks(which: Quorum) {
    let which = black_box(which);
    for mask in 0..1000 {
        black_box(unsafe { which(black_box(15), black_box(mask * 65)) });
    }
}

fn row(label: &str, [older, newer, rust]: [f64; 3], digits: usize) {
    println!(
        "{label} {older:.digits$} | {newer:.digits$} | {:.2} | {rust:.digits$} | {:.2} |",
        older / newer,
        newer / rust
    );
}

fn head(unit: &str) {
    println!("\n| records | how many | sought | older, {unit} | newer, {unit} | older/newer | Rust, {unit} | newer/Rust |\n|---|---|---|---|---|---|---|---|");
}

fn main() {
    let words: Vec<String> = std::env::args().skip(1).collect();
    let all = cases();
    match words[0].as_str() {
        "times" => {
            head("ns");
            for c in &all {
                for which in SEEKS {
                    assert_eq!(seek(which, c), c.answer, "{}", c.label);
                }
                row(
                    &c.label,
                    times(SEEKS.map(|which| {
                        Box::new(move || {
                            black_box(seek(which, black_box(c)));
                        }) as Box<dyn FnMut()>
                    })),
                    0,
                );
            }
            for mask in 0..=u16::MAX {
                for n in [3, 7, 15] {
                    let answers = QUORUMS.map(|which| unsafe { which(n, mask) });
                    assert!(answers[0] == answers[2] && answers[1] == answers[2]);
                }
            }
            let least =
                times(QUORUMS.map(|which| Box::new(move || masks(which)) as Box<dyn FnMut()>));
            row("| a quorum of a mask | | |", least.map(|t| t / 1000.0), 2);
        }
        // valgrind counts what is between two ends
        "counts" => {
            for c in &all {
                for which in SEEKS {
                    black_box(seek(which, c));
                    case_ends();
                }
            }
            for which in QUORUMS {
                masks(which);
                case_ends();
            }
        }
        _ => {
            // the parts that valgrind wrote, one for each case and side: the number on the line `totals`
            let part = |k: usize| -> f64 {
                let text = std::fs::read_to_string(format!("{}/counts.{k}", words[1])).unwrap();
                text.lines()
                    .find_map(|l| l.strip_prefix("totals: "))
                    .unwrap()
                    .trim()
                    .parse()
                    .unwrap()
            };
            head("instructions");
            for (k, c) in all.iter().enumerate() {
                row(&c.label, [part(3 * k + 1), part(3 * k + 2), part(3 * k + 3)], 0);
            }
            let k = 3 * all.len();
            row(
                "| a quorum of a mask | | |",
                [part(k + 1), part(k + 2), part(k + 3)].map(|n| n / 1000.0),
                1,
            );
        }
    }
}
