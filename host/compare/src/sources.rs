//! Where inputs come from: random scripts of the second program, 01's bench, runs to the last record
//! and the last view, runs that are given.

use second::random::Random;
use second::replay::Input;
use second::scripts::Script;
use station::{GENESIS, Message, Name, Size};

/// Inputs, each for the station as it then stands.
pub trait Source {
    fn next(&mut self, station: Option<&second::Station>) -> Option<Input>;
}

/// Inputs that are known beforehand.
pub struct Fixed<'a> {
    rest: std::slice::Iter<'a, Input>,
}

impl<'a> Fixed<'a> {
    pub fn new(inputs: &'a [Input]) -> Fixed<'a> {
        Fixed { rest: inputs.iter() }
    }
}

impl Source for Fixed<'_> {
    fn next(&mut self, _: Option<&second::Station>) -> Option<Input> {
        self.rest.next().cloned()
    }
}

/// A random script of a seed. It ends after some inputs, or when the station has stopped.
pub struct Scripted {
    fresh: Option<Input>,
    script: Script,
    left: u64,
}

impl Scripted {
    /// The more records there are, the longer scripts may be.
    pub fn new(size: Size, seed: u64) -> Scripted {
        let mut random = Random::new(!seed);
        let fresh = settings(&mut random);
        let left = 200 + random.below(16 * size.statements() as u64);
        Scripted { fresh: Some(fresh), script: Script::new(programs::limits(size), seed), left }
    }
}

impl Source for Scripted {
    fn next(&mut self, station: Option<&second::Station>) -> Option<Input> {
        if let Some(fresh) = self.fresh.take() {
            return Some(fresh);
        }
        self.left = self.left.checked_sub(1)?;
        self.script.input(station?)
    }
}

/// Settings: mostly small delays, in which much happens; some of the whole range; some that are bad.
fn settings(random: &mut Random) -> Input {
    let n = 3 + 2 * random.below(7);
    let own = random.below(n);
    let d = match random.below(20) {
        0 => random.pick(&[100, 1000, 10_000]),
        1 => 1 + random.below(100),
        _ => random.pick(&[1, 1, 1, 2, 2, 3, 5]),
    };
    let small = random.pick(&[3, 3, 5, n]);
    match random.below(40) {
        0 => Input::Fresh { n: random.pick(&[0, 1, 2, 4, 14, 16, 17, n + (1 << 32)]), d, own: 0 },
        1 => Input::Fresh { n, d: random.pick(&[0, 10_001, u64::MAX]), own },
        2 => Input::Fresh { n, d, own: random.pick(&[n, n + 1, 1 << 32, u64::MAX]) },
        _ => Input::Fresh { n: small, d, own: own % small },
    }
}

/// Runs with their titles.
pub type Runs = Vec<(&'static str, Vec<Input>)>;

/// 01's "Examples on the bench", the unmarked ones among them; of those at 33 and 129 the like at the
/// limits of the size.
pub fn bench(size: Size) -> Runs {
    let first = propose(1, name(1), GENESIS);
    let lower = |height| status(height, name(height));
    let room = size.statements() as u32;
    vec![
        ("silence is blamed at 14", of(2, [ticks(14)])),
        ("the leader's new-view at 5", of(1, [ticks(5)])),
        ("a commit at 12", of(2, [ticks(7), step(first), ticks(5)])),
        (
            "a conflict at 11",
            of(2, [ticks(7), step(first), ticks(4), step(propose(1, name(2), GENESIS)), ticks(1)]),
        ),
        ("a quit at 20", of(0, [ticks(20), step(blame_set(0b110)), ticks(3)])),
        ("the blame after one vote at 18", of(2, [step(first), ticks(18)])),
        (
            "a new-view below the lock",
            of(
                1,
                [step(lower(3)), step(lower(2)), step(blame_set(0b101)), ticks(3), step(below())],
            ),
        ),
        ("not allowed", of(2, [not_allowed(size)])),
        ("a byte short or long", of(2, [short_or_long()])),
        ("bad settings", bad_settings()),
        ("one statement too many", of(2, [chain(room), step(link(room + 1)), ticks(1)])),
        ("a repeat of the first", of(2, [chain(room), step(link(1)), ticks(5)])),
        ("the longest patience", [vec![fresh(15, 10_000, 14)], ticks(60_002)].concat()),
    ]
}

/// 02, request 4: children with the right parent and with a wrong one, above a propose and above a
/// new-view, two heights above and of another view; in both orders, in their view and at its entry.
pub fn parents() -> Runs {
    let child = |height, parent| of_view(2, propose(height, name(8), parent));
    let lower = [below(), of_view(2, link(2))];
    let wrong = name(7);
    let upper = [child(3, name(2)), child(3, wrong), child(4, wrong), of_view(3, child(3, wrong))];
    let mut runs = Runs::new();
    for known in lower {
        for upper in upper {
            let enter = || [step(blame_set(0b110)), ticks(3)].concat();
            for pair in [[known, upper], [upper, known]] {
                let pair = || pair.into_iter().flat_map(step).collect();
                runs.push(("a child in its view", of(0, [enter(), pair(), ticks(12)])));
                runs.push(("a child at the entry", of(0, [pair(), enter(), ticks(12)])));
            }
        }
    }
    // One height and name with another parent.
    let twins = [link(2), propose(2, name(2), wrong)].map(step).concat();
    runs.push(("two parents", of(0, [twins, ticks(12)])));
    runs
}

/// Runs to the last statement, the last tally and the last view of a size, and past them.
pub fn limits(size: Size) -> Runs {
    let (room, tallies) = (size.statements() as u32, size.tallies() as u32);
    let offer = || vec![Input::Offer(name(0).to_vec())];
    // Station 1 leads view 1: its new-view is made at clock 5.
    let led = || [ticks(5), step(vote(1, 0, GENESIS, 0))].concat();
    let open = |more| [statuses(1..tallies + more), step(vote(1, 1, name(1), 1))].concat();
    vec![
        ("a full log in one tick", of(2, [chain(room), ticks(6)])),
        ("the longest entry", of(0, [downwards(room), step(blame_set(0b110)), ticks(12)])),
        ("one tally too many", of(2, [open(1), step(vote(1, 2, name(1), 1)), ticks(1)])),
        ("a leader without a statement", of(1, [chain(room), ticks(6)])),
        ("a leader without a tally", of(1, [open(1), ticks(6)])),
        ("an offer without a statement", of(1, [led(), ahead(room - 1), offer(), ticks(1)])),
        ("an offer without a tally", of(1, [led(), open(0), offer(), ticks(1)])),
        (
            "an offer whose tally is there",
            of(1, [led(), statuses(0..tallies - 1), offer(), ticks(6)]),
        ),
        ("every view", of(0, [views(size), ticks(30), past(size)])),
        ("too early", of(2, [too_early()])),
        (
            "rude neighbours, and one status too many",
            of(2, [rude(), statuses(100..tallies + 100), rude(), ticks(1)]),
        ),
    ]
}

fn fresh(n: u64, d: u64, own: u64) -> Input {
    Input::Fresh { n, d, own }
}

/// A run of the bench's group, n=3 and D=2.
fn of<const N: usize>(own: u64, parts: [Vec<Input>; N]) -> Vec<Input> {
    [vec![fresh(3, 2, own)], parts.concat()].concat()
}

fn ticks(count: usize) -> Vec<Input> {
    vec![Input::Tick; count]
}

fn step(message: Message) -> Vec<Input> {
    vec![Input::Step(message.encode())]
}

fn name(number: u32) -> Name {
    let mut name = [0x5a; 32];
    name[..4].copy_from_slice(&number.to_be_bytes());
    name
}

fn propose(height: u32, name: Name, parent: Name) -> Message {
    Message::Propose { view: 1, height, name, parent, mask: 0b011, author: 1 }
}

fn link(height: u32) -> Message {
    let parent = if height == 1 { GENESIS } else { name(height - 1) };
    propose(height, name(height), parent)
}

/// A chain of so many blocks in view 1.
fn chain(count: u32) -> Vec<Input> {
    (1..=count).flat_map(|height| step(link(height))).collect()
}

/// The same link in another view, with its leader.
fn of_view(of: u32, mut message: Message) -> Message {
    if let Message::Propose { view, author, .. } = &mut message {
        (*view, *author) = (of, (of % 3) as u8);
    }
    message
}

/// A chain in view 2, before it is entered: stored from the top down.
fn downwards(count: u32) -> Vec<Input> {
    (1..=count).rev().flat_map(|height| step(of_view(2, link(height)))).collect()
}

/// So many blocks of the next view, before it is entered.
fn ahead(count: u32) -> Vec<Input> {
    (1..=count).flat_map(|height| step(of_view(2, link(height)))).collect()
}

/// Every kind of message of a view that station 0 of 3 leads.
fn of_each_kind(view: u32) -> Vec<Input> {
    let new_view = Message::NewView {
        view,
        height: 0,
        name: GENESIS,
        certificate_view: 0,
        mask: 0,
        author: 0,
    };
    let status = Message::Status { height: 1, name: name(1), certificate_view: view, mask: 0b011 };
    let blame = Message::Blame { view, author: 1 };
    let blames = Message::BlameSet { view, mask: 0b110 };
    let messages =
        [new_view, of_view(view, link(1)), vote(view, 1, name(1), 1), blame, blames, status];
    messages.into_iter().flat_map(step).collect()
}

/// Views 3 and 6 seen from view 1, while it waits, and from view 2; and what is not allowed besides.
fn too_early() -> Vec<Input> {
    let bad = Message::Blame { view: 3, author: 3 };
    let near = || [of_each_kind(3), of_each_kind(6), step(bad)].concat();
    [near(), step(blame_set(0b110)), near(), ticks(3), near(), ticks(9)].concat()
}

fn vote(view: u32, height: u32, name: Name, author: u8) -> Message {
    Message::Vote { view, height, name, author }
}

/// Statuses of these names at height 1, each of which opens a tally that is nobody's.
fn statuses(names: std::ops::Range<u32>) -> Vec<Input> {
    let status = |name| Message::Status { height: 1, name, certificate_view: 1, mask: 0b011 };
    names.flat_map(|number| step(status(name(number)))).collect()
}

/// Every author votes for seventeen names and once more for the first, and in the next view for one that
/// a statement opens; then what is refused before a vote is one too many.
fn rude() -> Vec<Input> {
    let votes = |author: u8| {
        let first = 20 * u32::from(author);
        let names = (first..first + 17).chain([first]);
        names.flat_map(move |number| step(vote(1, 1, name(number), author))).collect::<Vec<_>>()
    };
    let later = [vote(3, 1, name(19), 0), vote(1, 1, name(19), 3), vote(1, 1, name(19), 0)];
    let opened = [of_view(2, link(1)), vote(2, 1, name(1), 0)];
    let rest = later.into_iter().chain(opened);
    (0..3).flat_map(votes).chain(rest.flat_map(step)).collect()
}

/// From view to view by blame sets, with D = 2, and one too many.
fn views(size: Size) -> Vec<Input> {
    let quit = |view| [step(Message::BlameSet { view, mask: 0b110 }), ticks(3)].concat();
    (1..=size.views() + 1).flat_map(quit).collect()
}

/// In the last view and behind it: kept, and not allowed.
fn past(size: Size) -> Vec<Input> {
    let views = [size.views(), size.views() + 1];
    views.into_iter().flat_map(|view| step(of_view(view, link(1)))).collect()
}

fn blame_set(mask: u16) -> Message {
    Message::BlameSet { view: 1, mask }
}

fn status(height: u32, name: Name) -> Message {
    Message::Status { height, name, certificate_view: 1, mask: 0b011 }
}

fn below() -> Message {
    let (name, mask) = (name(2), 0b011);
    Message::NewView { view: 2, height: 2, name, certificate_view: 1, mask, author: 2 }
}

fn not_allowed(size: Size) -> Vec<Input> {
    let one_bit = propose(1, name(1), GENESIS).with_mask(0b010);
    let blame = |view| Message::Blame { view, author: 1 };
    let past = blame(size.views() + 1);
    [past, blame(0), blame_set(0b1011), one_bit].into_iter().flat_map(step).collect()
}

fn short_or_long() -> Vec<Input> {
    let messages = [below(), link(1), blame_set(0b011), status(1, name(1))];
    let bytes = messages.iter().map(Message::encode);
    bytes
        .flat_map(|whole| [whole[..whole.len() - 1].to_vec(), [whole, vec![0]].concat()])
        .map(Input::Step)
        .collect()
}

fn bad_settings() -> Vec<Input> {
    vec![fresh(4, 2, 0), fresh(3, 0, 0), fresh(3, 10_001, 0), fresh(15, 10_000, 0)]
}

#[cfg(test)]
mod tests {
    use super::*;
    use crate::pair::Pair;
    use crate::{Met, run};
    use programs::Second;

    /// How often each number is answered in a run.
    fn numbers(size: Size, inputs: &[Input]) -> [u64; 13] {
        let mut met = Met::default();
        assert_eq!(run(Pair::<Second>::new(size), Fixed::new(inputs), &mut met).1, None);
        met.numbers
    }

    /// Runs to the limits do as their titles say: one too many gives 6, and 3 to the next input.
    #[test]
    fn runs_go_to_the_limits_and_past_them() {
        for size in Size::ALL {
            for (title, inputs) in limits(size) {
                let found = numbers(size, &inputs);
                let stops = u64::from(title.contains("too many") || title.contains("without"));
                assert_eq!((found[6], found[3] > 0), (stops, stops == 1), "{size:?}: {title}");
                let bad = match title {
                    "every view" => (2, 0),
                    "too early" => (3, 25),
                    "rude neighbours, and one status too many" => (1, 1),
                    _ => (0, 0),
                };
                assert_eq!((found[5], found[11]), bad, "{size:?}: {title}");
            }
            for (title, inputs) in bench(size) {
                let stops = u64::from(title == "one statement too many");
                assert_eq!(numbers(size, &inputs)[6], stops, "{size:?}: {title}");
            }
        }
    }
}
