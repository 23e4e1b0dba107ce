//! Faulty stations of a known kind. Each follows the rules with a station of its own, and sends what
//! that station sends but for what its kind does otherwise.

use crate::group::{Letter, Plan};
use crate::watch::Block;
use station::{Effect, Message, Name};
use std::fmt;
use std::str::FromStr;

/// How a station is faulty.
#[derive(Clone, Copy, Debug, PartialEq, Eq)]
pub enum Fault {
    /// It never sends anything.
    Silent,
    /// It proposes two blocks of one height to everybody.
    Equivocating,
    /// It shows its block to one station, which tells the others a delay later; some delays after
    /// that it sends them another block of that height. With three of them this is the last moment
    /// before they would commit.
    Late,
    /// It proposes one block to half of the group, another to the rest.
    Splitting,
    /// It splits the group, and shows all of them a child of either block as soon as that has the
    /// votes: for half of them a child with the wrong parent, before they know the other block.
    Planting,
    /// It votes for invented names, three with every tick, without end.
    Rude,
    /// It sends anything that the premises allow, whenever it likes.
    Wild,
}

impl Fault {
    pub const ALL: [Fault; 7] = [
        Fault::Silent,
        Fault::Equivocating,
        Fault::Late,
        Fault::Splitting,
        Fault::Planting,
        Fault::Rude,
        Fault::Wild,
    ];

    /// What it is called where it is asked for.
    pub fn word(self) -> &'static str {
        match self {
            Fault::Silent => "silent",
            Fault::Equivocating => "equivocating",
            Fault::Late => "late",
            Fault::Splitting => "splitting",
            Fault::Planting => "planting",
            Fault::Rude => "rude",
            Fault::Wild => "wild",
        }
    }

    /// What a leader of this kind does.
    pub fn deed(self) -> &'static str {
        match self {
            Fault::Silent => "says nothing",
            Fault::Equivocating => "two blocks to all",
            Fault::Late => "a second block, late",
            Fault::Splitting => "splits the group",
            Fault::Planting => "a wrong parent's child",
            Fault::Rude => "votes for anything",
            Fault::Wild => "says anything",
        }
    }
}

impl fmt::Display for Fault {
    fn fmt(&self, f: &mut fmt::Formatter<'_>) -> fmt::Result {
        f.write_str(self.word())
    }
}

impl FromStr for Fault {
    type Err = String;

    fn from_str(word: &str) -> Result<Fault, String> {
        let found = Fault::ALL.into_iter().find(|fault| fault.word() == word);
        found.ok_or_else(|| format!("{word} is no kind of fault"))
    }
}

/// A faulty station at work.
pub struct Faulty<'a> {
    pub fault: Fault,
    pub own: u8,
    pub clock: u32,
    pub plan: &'a Plan,
    /// Whether it was offered a name, and so proposes if it sends anything.
    pub proposes: bool,
    /// A name that nobody has used.
    pub spare: Name,
}

impl Faulty<'_> {
    /// The letters that it sends where its own station would do this.
    pub fn letters(&self, effects: &[Effect]) -> Vec<Letter> {
        if matches!(self.fault, Fault::Silent | Fault::Wild) {
            return Vec::new();
        }
        effects.iter().flat_map(|effect| self.letters_for(effect)).collect()
    }

    fn letters_for(&self, effect: &Effect) -> Vec<Letter> {
        match *effect {
            Effect::Committed { .. } => Vec::new(),
            Effect::ToOne { station, message } => vec![self.letter(station, message, self.plan.d)],
            Effect::ToAll(message) if !self.proposes => {
                self.to(self.others(), message, self.plan.d)
            }
            Effect::ToAll(message) => match (message, self.twin(message)) {
                (Message::Propose { .. }, twin) => self.misproposed(message, twin),
                (_, twin) => self.misvoted(message, twin),
            },
        }
    }

    /// The same propose or vote for the spare name.
    fn twin(&self, mut message: Message) -> Message {
        if let Message::Propose { name, .. } | Message::Vote { name, .. } = &mut message {
            *name = self.spare;
        }
        message
    }

    /// Its own propose, and another one.
    fn misproposed(&self, message: Message, twin: Message) -> Vec<Letter> {
        let d = self.plan.d;
        let (some, rest) = self.halves();
        match self.fault {
            Fault::Equivocating => {
                [self.to(self.others(), message, d), self.to(self.others(), twin, d)].concat()
            }
            Fault::Splitting | Fault::Planting => {
                [self.to(some, message, 0), self.to(rest, twin, 0)].concat()
            }
            _ => {
                let mut others = self.plan.sound();
                let first = others.remove(0);
                let late = self.plan.lateness * d;
                [vec![self.letter(first, message, 0)], self.to(others, twin, late)].concat()
            }
        }
    }

    /// A child of a block of its view, with these voters, at once.
    pub fn child(&self, (view, height, parent): Block, mask: u16) -> Vec<Letter> {
        let (height, name, author) = (height + 1, self.spare, self.own);
        self.to(self.others(), Message::Propose { view, height, name, parent, mask, author }, 0)
    }

    /// A vote for a name that nobody has used, to all and at once.
    pub fn invented(&self, view: u32) -> Vec<Letter> {
        let (height, name, author) = (1, self.spare, self.own);
        self.to(self.others(), Message::Vote { view, height, name, author }, 0)
    }

    /// Its votes go with its blocks.
    fn misvoted(&self, message: Message, twin: Message) -> Vec<Letter> {
        let (some, rest) = self.halves();
        match self.fault {
            Fault::Splitting | Fault::Planting => {
                [self.to(some, message, 0), self.to(rest, twin, 0)].concat()
            }
            _ => self.to(self.others(), message, self.plan.d),
        }
    }

    /// The sound stations in two halves.
    fn halves(&self) -> (Vec<u8>, Vec<u8>) {
        let mut some = self.plan.sound();
        let rest = some.split_off(some.len().div_ceil(2));
        (some, rest)
    }

    fn others(&self) -> Vec<u8> {
        (0..self.plan.n).filter(|&station| station != self.own).collect()
    }

    fn to(&self, stations: Vec<u8>, message: Message, delay: u32) -> Vec<Letter> {
        stations.into_iter().map(|station| self.letter(station, message, delay)).collect()
    }

    fn letter(&self, to: u8, message: Message, delay: u32) -> Letter {
        Letter { from: self.own, to, sent: self.clock, due: self.clock + delay, message }
    }
}
