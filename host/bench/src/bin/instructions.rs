//! Instructions of each kind of input, as valgrind counts them; `tools/instructions` runs it.
//!
//!     instructions run N          the script of a group of n in all programs, under callgrind
//!     instructions table N FILE   the table of what callgrind wrote

use bench::script::{self, Kind};
use programs::{Lent, Program, Proved, Second};
use station::Size;
use std::hint::black_box;

const SIZE: Size = Size::Small;
const D: u32 = 2;
const KINDS: usize = Kind::ALL.len();

/// The own number that the bench takes in a group of n.
fn own(n: u8) -> u8 {
    if n == 3 { 1 } else { 4 }
}

/// A deed in a function of its own name, by which callgrind's count of it is found.
type Counted = fn(&mut dyn FnMut());

macro_rules! counted {
    ($($name:ident)*) => {
        $(
            #[inline(never)]
            fn $name(deed: &mut dyn FnMut()) {
                black_box(stringify!($name));
                deed();
                black_box(());
            }
        )*
        const COUNTED: [(&str, Counted); [$(stringify!($name)),*].len()] =
            [$((stringify!($name), $name)),*];
    };
}

// by column of the table, and kind of input in the order of `Kind::ALL`; the last counts what the others have on top
counted! {
    proved_tick proved_statement proved_repeat proved_vote proved_other
    check_tick check_statement check_repeat check_vote check_other
    lent_tick lent_statement lent_repeat lent_vote lent_other
    second_tick second_statement second_repeat second_vote second_other
    counted_nothing
}

fn main() {
    let words: Vec<String> = std::env::args().skip(1).collect();
    let words: Vec<&str> = words.iter().map(String::as_str).collect();
    match words[..] {
        ["run", n] => run(n.parse().expect("n")),
        ["table", n, file] => table(n.parse().expect("n"), file),
        _ => panic!("instructions run N, or instructions table N FILE"),
    }
}

fn run(n: u8) {
    give(n, 0, |program: &mut Proved, kind| {
        let counted = COUNTED[KINDS + kind].1;
        if Kind::ALL[kind].0 == Kind::Tick {
            let mut stopped = program.stopped();
            counted(&mut || {
                black_box(stopped.tick().number);
            });
        } else {
            counted(&mut || {
                black_box(program.step(&[]).number);
            });
        }
    });
    give(n, 2, |_: &mut Lent, _| ());
    give(n, 3, |_: &mut Second, _| ());
    COUNTED[4 * KINDS].1(&mut || ());
}

/// The script to one program, counted in a column; before each input what is asked for. Of the proved one that is the check
/// alone: a message of no bytes, or for a tick a tick of the same station, stopped, refused right after it.
fn give<P: Program>(n: u8, column: usize, mut before: impl FnMut(&mut P, usize)) {
    let mut program = P::fresh(SIZE, n.into(), D.into(), own(n).into()).expect("good settings");
    for input in script::script(SIZE, n, D, own(n)) {
        let kind = Kind::ALL.iter().position(|(kind, _)| *kind == input.kind).expect("a kind");
        before(&mut program, kind);
        COUNTED[KINDS * column + kind].1(&mut || {
            black_box(input.call.give(&mut program).number);
        });
    }
}

/// What callgrind counted in the calls of a function, with all below it: behind a `cfn` with its name and a `calls` stands
/// a line whose last number it is.
fn count(text: &str, name: &str) -> f64 {
    let (mut sum, mut called, mut next) = (0.0, false, false);
    for line in text.lines() {
        if let Some(callee) = line.strip_prefix("cfn=") {
            called = callee.contains(name);
        } else if line.starts_with("calls=") {
            next = called;
        } else if next {
            let cost = line.split(' ').next_back().and_then(|cost| cost.parse::<f64>().ok());
            sum += cost.expect("a cost");
            next = false;
        }
    }
    sum
}

fn table(n: u8, file: &str) {
    let text = std::fs::read_to_string(file).expect("what callgrind wrote");
    let script = script::script(SIZE, n, D, own(n));
    let nothing = count(&text, COUNTED[4 * KINDS].0);
    let counts: [usize; KINDS] = std::array::from_fn(|kind| {
        script.iter().filter(|input| input.kind == Kind::ALL[kind].0).count()
    });
    let of = |column: usize, kind: usize| {
        count(&text, COUNTED[KINDS * column + kind].0) - nothing * counts[kind] as f64
    };
    println!("\n### n = {n}: instructions by kind of input\n");
    println!(
        "| input | how many | proved | of it the check | lent | with the check | second | without the check |"
    );
    println!("|---|---|---|---|---|---|---|---|");
    let mut all = [0.0; 4];
    for (kind, (_, title)) in Kind::ALL.iter().enumerate() {
        let sums: [f64; 4] = std::array::from_fn(|column| of(column, kind));
        for (all, sum) in all.iter_mut().zip(sums) {
            *all += sum;
        }
        row(title, counts[kind], sums);
    }
    row("whole script", script.len(), all);
}

fn row(title: &str, count: usize, sums: [f64; 4]) {
    let [proved, check, lent, second] = sums.map(|sum| sum / count as f64);
    println!(
        "| {title} | {count} | {proved:.0} | {check:.0} | {lent:.0} | {:.2} | {second:.0} | {:.2} |",
        proved / lent,
        (proved - check) / second
    );
}
