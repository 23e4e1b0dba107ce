//! Wrong stations are found, and what is printed of them is short.

use compare::pair::Pair;
use compare::{Met, replay, run, shrink, sources::Scripted, text};
use programs::{Answer, Program, Second};
use station::{Effect, Effects, Lock, Name, Phase, Shown, Size};

/// The second program with one thing wrong.
struct Wrong<const HOW: u32> {
    station: Second,
}

/// It says nothing of what it commits.
const MUTE: u32 = 1;
/// It takes blames for unreadable.
const DEAF: u32 = 2;
/// It forgets the last name of its log.
const FORGETFUL: u32 = 3;
/// It shows one tick less than is left.
const HASTY: u32 = 4;
/// It tells the clock before the one at which a block was certified.
const EARLY: u32 = 5;

impl<const HOW: u32> Program for Wrong<HOW> {
    const TITLE: &'static str = "wrong";

    fn fresh(size: Size, n: u64, d: u64, own: u64) -> Result<Self, u32> {
        Second::fresh(size, n, d, own).map(|station| Wrong { station })
    }

    fn step(&mut self, message: &[u8]) -> Answer<'_> {
        match HOW == DEAF && message.get(3) == Some(&4) {
            true => Answer { number: 4, out: &[] },
            false => self.station.step(message),
        }
    }

    fn tick(&mut self) -> Answer<'_> {
        let answer = self.station.tick();
        let commits = |effect| matches!(effect, Effect::Committed { .. });
        match HOW == MUTE && Effects::new(answer.out).any(commits) {
            true => Answer { out: &[], ..answer },
            false => answer,
        }
    }

    fn offer(&mut self, name: &[u8]) -> Answer<'_> {
        self.station.offer(name)
    }

    fn phase(&self) -> Phase {
        self.station.phase()
    }

    fn view(&self) -> u32 {
        self.station.view()
    }

    fn lock(&self) -> Lock {
        self.station.lock()
    }

    fn log(&self) -> Vec<Name> {
        let mut log = self.station.log();
        if HOW == FORGETFUL {
            log.pop();
        }
        log
    }

    fn display(&self) -> Vec<Shown> {
        let mut display = self.station.display();
        display.iter_mut().for_each(|shown| shown.ticks_left -= i64::from(HOW == HASTY));
        display
    }

    fn certified(&self, view: u64, height: u64, name: &[u8]) -> u64 {
        let answer = self.station.certified(view, height, name);
        match HOW == EARLY && (2..1 << 32).contains(&answer) {
            true => answer - 1,
            false => answer,
        }
    }

    fn shown(&self) -> Vec<u8> {
        self.station.shown()
    }
}

/// Runs scripts until one differs, and shrinks it.
fn found<P: Program>() -> String {
    for seed in 0..1000 {
        let size = Size::Small;
        let (inputs, difference) =
            run(Pair::<P>::new(size), Scripted::new(size, seed), &mut Met::default());
        if difference.is_some() {
            let fails = |inputs: &[_]| replay(Pair::<P>::new(size), inputs).map(|found| found.at);
            let shrunk = shrink::shrink(inputs, fails);
            return text::write(&shrunk);
        }
    }
    panic!("no script shows it");
}

/// A commit needs a propose and 2D+1 ticks after it, and nothing else is left.
#[test]
fn a_mute_station_is_found() {
    let script = found::<Wrong<MUTE>>();
    assert_eq!(script.lines().filter(|line| line.starts_with("message 010001020200")).count(), 1);
    assert!(!script.contains("offer"), "{script}");
    assert_eq!(text::read(script.as_bytes()).map(|inputs| text::write(&inputs)), Ok(script));
}

#[test]
fn a_deaf_station_is_found() {
    let script = found::<Wrong<DEAF>>();
    let lines: Vec<&str> = script.lines().collect();
    assert_eq!(lines.len(), 2);
    assert!(lines[0].starts_with("fresh ") && lines[1].starts_with("message 01000104"));
}

#[test]
fn a_forgetful_station_is_found() {
    let script = found::<Wrong<FORGETFUL>>();
    assert!(script.lines().count() <= 13, "{script}");
}

/// The vote for a propose is enough.
#[test]
fn a_hasty_display_is_found() {
    let script = found::<Wrong<HASTY>>();
    let lines: Vec<&str> = script.lines().collect();
    assert_eq!(lines.len(), 2);
    assert!(lines[0].starts_with("fresh ") && lines[1].starts_with("message 01000102"));
}

/// A tick, and what certifies a block after it. Which tally is asked about goes by the inputs, so that
/// some more may be left.
#[test]
fn an_early_clock_is_found() {
    let script = found::<Wrong<EARLY>>();
    assert!(script.contains("tick"), "{script}");
    assert!(script.lines().count() <= 30, "{script}");
}

#[test]
fn the_second_program_is_like_itself() {
    for size in Size::ALL {
        let mut met = Met::default();
        for seed in 0..200 {
            assert_eq!(run(Pair::<Second>::new(size), Scripted::new(size, seed), &mut met).1, None);
        }
        let never = [1, 2, 8];
        for (number, count) in met.numbers.iter().enumerate() {
            assert!(*count > 0 || never.contains(&number), "{number} is never answered: {met:?}");
        }
    }
}
