//! The plain engine as a referee: as long as its list has room it is handed every input too, and must
//! answer and write what the programs do, and have their log.

use crate::pair::words;
use programs::{Answer, PlainEngine};
use second::replay::Input;
use station::{Name, Refusal};

/// A plain engine with room for so many inputs. There is none before the first good `fresh`, and none
/// any more when its list is full.
pub struct Referee {
    room: usize,
    plain: Option<PlainEngine>,
    /// How many inputs the list holds.
    held: usize,
}

impl Referee {
    /// Without room nothing is judged.
    pub fn new(room: usize) -> Referee {
        Referee { room, plain: None, held: 0 }
    }

    /// Whether the next input is judged.
    pub fn is_there(&self) -> bool {
        self.plain.is_some()
    }

    /// A fresh list, where both programs answered with this number.
    pub fn fresh(&mut self, n: u64, d: u64, own: u64, wanted: u32) -> Result<(), String> {
        if self.room == 0 {
            return Ok(());
        }
        let made = PlainEngine::fresh(self.room, n, d, own);
        let got = made.as_ref().err().map_or(0, |number| *number);
        if got != wanted {
            return Err(format!("plain answers {got}, second {wanted}"));
        }
        if let Ok(plain) = made {
            (self.plain, self.held) = (Some(plain), 0);
        }
        Ok(())
    }

    /// An input that both programs answered so. A full list must answer 13 to what it would keep, and is
    /// laid aside then, since the programs have gone on without it.
    pub fn take(&mut self, input: &Input, answered: Answer) -> Result<(), String> {
        let Some(plain) = &mut self.plain else { return Ok(()) };
        let is_kept = matches!(answered.number, 0 | 6 | 7 | 8);
        let is_full = is_kept && self.held == self.room;
        let full = Answer { number: Refusal::Journal.number(), out: &[] };
        let wanted = if is_full { full } else { answered };
        let got = match input {
            Input::Tick => plain.tick(),
            Input::Step(message) => plain.step(message),
            Input::Offer(name) => plain.offer(name),
            _ => unreachable!("no list holds a question or a fresh start"),
        };
        if got != wanted {
            return Err(format!("plain answers {}, second {}", words(got), words(wanted)));
        }
        self.held += usize::from(is_kept);
        if is_full {
            self.plain = None;
        }
        Ok(())
    }

    /// Whether the list has no room left: it is to be compared with the log before it is laid aside.
    pub fn is_full(&self) -> bool {
        self.plain.is_some() && self.held == self.room
    }

    /// The log of both programs.
    pub fn compare_log(&self, log: &[Name]) -> Result<(), String> {
        match &self.plain {
            Some(plain) if plain.log() != log => Err("plain has another log".into()),
            _ => Ok(()),
        }
    }
}

#[cfg(test)]
mod tests {
    use super::*;

    const DONE: Answer = Answer { number: 0, out: &[] };

    fn of(room: usize) -> Referee {
        let mut referee = Referee::new(room);
        assert_eq!(referee.fresh(4, 2, 2, 10), Ok(()));
        assert!(!referee.is_there());
        assert_eq!(referee.fresh(3, 2, 2, 0), Ok(()));
        assert!(referee.is_there());
        referee
    }

    #[test]
    fn wrong_answers_are_found() {
        assert!(of(1).fresh(3, 2, 2, 10).is_err());
        assert!(of(1).take(&Input::Tick, Answer { number: 8, out: &[] }).is_err());
        assert!(of(1).take(&Input::Tick, Answer { number: 0, out: &[0x12] }).is_err());
        assert!(of(1).take(&Input::Step(vec![]), DONE).is_err());
        assert!(of(1).take(&Input::Offer(vec![7; 31]), Answer { number: 9, out: &[] }).is_err());
        assert!(of(1).compare_log(&[[7; 32]]).is_err());
        assert_eq!(of(1).compare_log(&[]), Ok(()));
    }

    #[test]
    fn a_full_list_is_laid_aside() {
        let mut referee = of(2);
        for _ in 0..2 {
            assert!(!referee.is_full());
            assert_eq!(referee.take(&Input::Tick, DONE), Ok(()));
        }
        assert!(referee.is_full());
        // what isn't kept has its own number still
        assert_eq!(referee.take(&Input::Step(vec![]), Answer { number: 4, out: &[] }), Ok(()));
        assert!(referee.is_full());
        assert_eq!(referee.take(&Input::Tick, DONE), Ok(()));
        assert!(!referee.is_there());
    }
}
