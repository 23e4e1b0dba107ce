//! The two programs side by side, and the plain engine beside them.

use crate::Met;
use crate::referee::Referee;
use programs::{Answer, Program, Second, shown};
use second::replay::Input;
use station::{Effect, Effects, GENESIS, Size};

/// A program under test beside the second one, with the limits of a size. Before the first good
/// `fresh` there is neither.
pub struct Pair<P> {
    size: Size,
    tested: Option<P>,
    second: Option<Second>,
    referee: Referee,
    /// Inputs so far.
    taken: usize,
}

impl<P: Program> Pair<P> {
    pub fn new(size: Size) -> Pair<P> {
        Pair::judged(size, 0)
    }

    /// A pair with a plain engine that has room for so many inputs of each fresh start. It has the small
    /// limits, so that it judges stations with these alone.
    pub fn judged(size: Size, room: usize) -> Pair<P> {
        let referee = Referee::new(if size == Size::Small { room } else { 0 });
        Pair { size, tested: None, second: None, referee, taken: 0 }
    }

    pub fn second(&self) -> Option<&second::Station> {
        self.second.as_ref().map(Second::station)
    }

    /// Compares the plain engine's log before its list is given up: when it is full, and at a run's end.
    pub fn end(&self) -> Result<(), String> {
        let log = self.second.as_ref().map(Second::log);
        self.referee.compare_log(&log.unwrap_or_default())
    }

    /// Takes an input to both; or how they differ.
    pub fn take(&mut self, input: &Input, met: &mut Met) -> Result<(), String> {
        met.inputs += 1;
        self.taken += 1;
        if let Input::Fresh { n, d, own } = *input {
            return self.fresh(n, d, own, met);
        }
        let (Some(tested), Some(second)) = (&mut self.tested, &mut self.second) else {
            return Ok(());
        };
        match input {
            Input::Display => return same_state(self.size, tested, second),
            Input::Certified { view, height, name } => {
                return same_clock(tested, second, *view, *height, name);
            }
            _ => {}
        }
        let (got, wanted) = (answer(tested, input), answer(second, input));
        if got != wanted {
            let (got, wanted) = (words(got), words(wanted));
            return Err(format!("{} answers {got}, second {wanted}", P::TITLE));
        }
        met.count(wanted);
        met.judged += u64::from(self.referee.is_there());
        self.referee.take(input, wanted)?;
        same_state(self.size, tested, second)?;
        ask(tested, second, self.taken)?;
        if self.referee.is_full() { self.end() } else { Ok(()) }
    }

    fn fresh(&mut self, n: u64, d: u64, own: u64, met: &mut Met) -> Result<(), String> {
        self.end()?;
        match (P::fresh(self.size, n, d, own), Second::fresh(self.size, n, d, own)) {
            (Ok(tested), Ok(second)) => {
                met.numbers[0] += 1;
                same_state(self.size, &tested, &second)?;
                (self.tested, self.second) = (Some(tested), Some(second));
                self.referee.fresh(n, d, own, 0)
            }
            (Err(got), Err(wanted)) if got == wanted => {
                met.numbers[wanted as usize] += 1;
                self.referee.fresh(n, d, own, wanted)
            }
            (got, wanted) => {
                let number = |fresh: Option<u32>| fresh.unwrap_or(0);
                let (got, wanted) = (number(got.err()), number(wanted.err()));
                Err(format!("{} answers {got}, second {wanted}", P::TITLE))
            }
        }
    }
}

fn answer<'a, P: Program>(program: &'a mut P, input: &Input) -> Answer<'a> {
    match input {
        Input::Fresh { .. } => unreachable!("a fresh start is no call on a station"),
        Input::Display | Input::Certified { .. } => unreachable!("a question is answered apart"),
        Input::Tick => program.tick(),
        Input::Step(message) => program.step(message),
        Input::Offer(name) => program.offer(name),
    }
}

fn same_state<P: Program>(size: Size, tested: &P, second: &Second) -> Result<(), String> {
    let (got, wanted) = (tested.shown(), second.shown());
    if got != wanted {
        let at = got.iter().zip(&wanted).position(|(got, wanted)| got != wanted);
        let place = at.map_or("their lengths".into(), |at| shown::place(size, at));
        return Err(format!("the stores differ: {place}"));
    }
    if tested.log() != second.log() {
        return Err("the logs differ".into());
    }
    if tested.display() != second.display() {
        return Err("the displays differ".into());
    }
    Ok(())
}

/// Asks both, after every fourth input, when one tally was certified, which of them goes by the inputs;
/// in turn also for what no tally has, and by a name that is too short.
fn ask<P: Program>(tested: &P, second: &Second, turn: usize) -> Result<(), String> {
    if !turn.is_multiple_of(4) {
        return Ok(());
    }
    let (turn, tallies) = (turn / 4, second.station().tallies());
    if tallies.is_empty() {
        return same_clock(tested, second, 0, 0, &GENESIS);
    }
    let second::Block { view, height, name } = tallies[turn % tallies.len()].block;
    let (view, height, name) = (u64::from(view), u64::from(height), name.to_bytes());
    match turn % 16 {
        0 => same_clock(tested, second, view | 1 << 32, height, &name),
        1 => same_clock(tested, second, view, height | 1 << 32, &name),
        2 => same_clock(tested, second, view + 1, height, &name),
        3 => same_clock(tested, second, view, height + 1, &name),
        4 => same_clock(tested, second, view, height, &name[1..]),
        _ => same_clock(tested, second, view, height, &name),
    }
}

fn same_clock<P: Program>(
    tested: &P,
    second: &Second,
    view: u64,
    height: u64,
    name: &[u8],
) -> Result<(), String> {
    let got = tested.certified(view, height, name);
    let wanted = second.certified(view, height, name);
    if got != wanted {
        let title = P::TITLE;
        return Err(format!("certified {view} {height}: {title} answers {got}, second {wanted}"));
    }
    Ok(())
}

/// An answer, short enough for a line.
pub(crate) fn words(answer: Answer) -> String {
    let hex: String = answer.out.iter().map(|byte| format!("{byte:02x}")).collect();
    match answer.number {
        0 if hex.is_empty() => "0, nothing".into(),
        0 => format!("0, {hex}"),
        number => number.to_string(),
    }
}

impl Met {
    fn count(&mut self, answer: Answer) {
        self.numbers[answer.number as usize] += 1;
        for effect in Effects::new(answer.out) {
            let kind = match effect {
                Effect::ToAll(_) => 0,
                Effect::ToOne { .. } => 1,
                Effect::Committed { .. } => 2,
            };
            self.effects[kind] += 1;
        }
    }
}
