//! What happened in a run, as the picture and the story need it.

use crate::group::{Call, Deed, Letter, Plan};
use station::{Effect, Lock, Message, Name, Phase};

/// Something that a station did.
#[derive(Clone, Copy, Debug, PartialEq, Eq)]
pub enum What {
    Enters { view: u32, lock: Lock },
    Makes(Message),
    Votes { view: u32, height: u32, name: Name, on_propose: bool },
    Blames { view: u32 },
    Quits { view: u32, on_pair: bool },
    Commits { height: u32, name: Name },
}

/// When and where.
#[derive(Clone, Copy, Debug, PartialEq, Eq)]
pub struct Mark {
    pub station: u8,
    pub clock: u32,
    /// Whether the tick itself did it, or something that came after it.
    pub by_tick: bool,
    pub what: What,
}

/// Everything that is kept of a run.
pub struct Trace {
    pub plan: Plan,
    pub last: u32,
    pub marks: Vec<Mark>,
    /// The letters upon which a sound station did something.
    pub letters: Vec<Letter>,
    /// The votes that sound stations were given.
    pub votes: Vec<Letter>,
    /// The names of proposes in the order in which they were made, with their heights.
    names: Vec<(u32, Name)>,
}

impl Trace {
    pub fn new(plan: Plan) -> Trace {
        Trace {
            plan,
            last: 0,
            marks: Vec::new(),
            letters: Vec::new(),
            votes: Vec::new(),
            names: Vec::new(),
        }
    }

    /// Keeps what is to be seen of a deed.
    pub fn see(&mut self, deed: &Deed, letters: &[Letter], lock: Lock) {
        if !self.plan.is_sound(deed.station) {
            return self.sent(letters);
        }
        let before = self.marks.len();
        self.entered(deed, lock);
        self.said(deed);
        if deed.after.1 != Phase::InView
            && (deed.before.1 == Phase::InView || before < self.marks.len())
        {
            let on_pair = !deed.to_all().any(|m| matches!(m, Message::BlameSet { .. }));
            self.mark(deed, What::Quits { view: deed.after.0, on_pair });
        }
        let Call::Given(letter) = deed.call else { return };
        if before < self.marks.len() {
            self.letters.push(*letter);
        }
        if let Message::Vote { .. } = letter.message {
            self.votes.push(*letter);
        }
    }

    /// Keeps the statements and blames of a faulty station.
    pub fn sent(&mut self, letters: &[Letter]) {
        for letter in letters.iter().filter(|letter| letter.message.author() == Some(letter.from)) {
            let message = letter.message.with_mask(0);
            let what = match message {
                Message::NewView { .. } | Message::Propose { .. } => What::Makes(message),
                Message::Blame { view, .. } => What::Blames { view },
                _ => continue,
            };
            if !self.of(letter.from).any(|mark| mark.what == what) {
                self.name(&message);
                let (station, clock) = (letter.from, letter.sent);
                self.marks.push(Mark { station, clock, by_tick: false, what });
            }
        }
    }

    fn entered(&mut self, deed: &Deed, lock: Lock) {
        let view = deed.after.0;
        if deed.before.0 < view {
            self.mark(deed, What::Enters { view, lock });
        }
    }

    /// The statements, votes, blames and commits of a deed.
    fn said(&mut self, deed: &Deed) {
        let mut on_propose = false;
        for effect in &deed.effects {
            match *effect {
                Effect::Committed { height, name } => {
                    self.mark(deed, What::Commits { height, name })
                }
                Effect::ToAll(Message::Vote { view, height, name, .. }) => {
                    self.mark(deed, What::Votes { view, height, name, on_propose });
                }
                Effect::ToAll(Message::Blame { view, .. }) => {
                    self.mark(deed, What::Blames { view })
                }
                Effect::ToAll(message) => {
                    on_propose = matches!(message, Message::Propose { .. });
                    let is_made = !matches!(deed.call, Call::Given(_));
                    if is_made
                        && deed.before.0 == deed.after.0
                        && message.author() == Some(deed.station)
                    {
                        self.name(&message);
                        self.mark(deed, What::Makes(message.with_mask(0)));
                    }
                }
                Effect::ToOne { .. } => {}
            }
        }
    }

    fn mark(&mut self, deed: &Deed, what: What) {
        let by_tick = matches!(deed.call, Call::Tick);
        self.marks.push(Mark { station: deed.station, clock: deed.clock, by_tick, what });
    }

    fn name(&mut self, statement: &Message) {
        if let Message::Propose { height, name, .. } = *statement
            && !self.names.contains(&(height, name))
        {
            self.names.push((height, name));
        }
    }

    /// Which of the blocks of its height a block is: 0 for the first that was made.
    pub fn rival(&self, height: u32, name: &Name) -> usize {
        let mut rivals = self.names.iter().filter(|known| known.0 == height);
        rivals.position(|known| known.1 == *name).unwrap_or(0)
    }

    /// A block's short label: a letter and its height.
    pub fn label(&self, height: u32, name: &Name) -> String {
        if height == 0 {
            return "genesis".into();
        }
        let letter = char::from(b'A' + self.rival(height, name).min(25) as u8);
        format!("{letter}{height}")
    }

    /// The marks of one station, in order.
    pub fn of(&self, station: u8) -> impl Iterator<Item = &Mark> {
        self.marks.iter().filter(move |mark| mark.station == station)
    }
}
