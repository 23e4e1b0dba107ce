//! Demand 3, checked as a run goes on: of two sound logs one begins the other, and a sound station
//! that votes for a propose at clock t and is in that view when the tick to t+2D+1 begins has the
//! block in its log after it. And request 12, by `progress`, and the premises, which hold the faulty
//! stations.

use crate::group::{Deed, Letter, Plan, is_expected, is_used_up};
use crate::progress::Progress;
use programs::Program;
use station::{Effect, Message, Name, Phase, Refusal};
use std::collections::{HashMap, HashSet};
use std::fmt;

/// Why a run ends early.
#[derive(Clone, Debug, PartialEq, Eq)]
pub enum Breach {
    /// Demand 3 is broken.
    Demand(String),
    /// A view with a prompt sound leader doesn't get on.
    Progress(String),
    /// The schedule is none of 01's: the simulation is at fault.
    Premise(String),
    /// A sound station has no record free: it would count among the f from here on.
    Full,
    /// A sound station answers 12 to a sound station's vote: it would count among the f from here on.
    UsedUp,
}

impl fmt::Display for Breach {
    fn fmt(&self, f: &mut fmt::Formatter<'_>) -> fmt::Result {
        match self {
            Breach::Demand(how) => write!(f, "demand 3 is broken: {how}"),
            Breach::Progress(how) => write!(f, "request 12 is broken: {how}"),
            Breach::Premise(how) => write!(f, "the schedule is none of 01's: {how}"),
            Breach::Full => f.write_str("a station has no record free"),
            Breach::UsedUp => f.write_str("a sound station's vote was refused with 12"),
        }
    }
}

/// (view, height, name)
pub type Block = (u32, u32, Name);

/// A sound station's vote for a propose.
#[derive(Clone, Copy, Debug)]
struct Voted {
    station: u8,
    clock: u32,
    view: u32,
    height: u32,
    name: Name,
}

/// What a run has shown so far.
pub struct Watch {
    plan: Plan,
    /// What sound stations have said of their own: votes, blames, statements with mask 0.
    pub said: HashSet<Message>,
    /// Every statement that was sent, each once, with the mask of its first sending.
    pub statements: Vec<Message>,
    /// Each name's height and parent.
    blocks: HashMap<Name, (u32, Option<Name>)>,
    /// Votes whose commit is not yet due.
    votes: Vec<Voted>,
    /// Votes whose commit is due at this tick.
    due: Vec<Voted>,
    /// The longest sound log.
    log: Vec<Name>,
    pub progress: Progress,
    pub commits: u64,
    pub quits: u64,
    /// Messages of faulty stations that were refused as too far ahead.
    pub ahead: u64,
    /// Votes of faulty stations that were refused with 12.
    pub used_up: u64,
    pub calls: u64,
}

impl Watch {
    pub fn new(plan: Plan) -> Watch {
        Watch {
            progress: Progress::new(plan.clone()),
            plan,
            said: HashSet::new(),
            statements: Vec::new(),
            blocks: HashMap::new(),
            votes: Vec::new(),
            due: Vec::new(),
            log: Vec::new(),
            commits: 0,
            quits: 0,
            ahead: 0,
            used_up: 0,
            calls: 0,
        }
    }

    /// Looks for votes whose last tick begins, while their station is still in their view.
    pub fn before_tick<P: Program>(&mut self, clock: u32, stations: &[P]) -> Result<(), Breach> {
        self.progress.before_tick(clock).map_err(Breach::Progress)?;
        let d = self.plan.d;
        let (ripe, votes) = self.votes.iter().partition(|vote| vote.clock + 2 * d == clock);
        self.votes = votes;
        self.due = ripe;
        self.due.retain(|vote| {
            let station = &stations[usize::from(vote.station)];
            (station.view(), station.phase()) == (vote.view, Phase::InView)
        });
        Ok(())
    }

    /// Looks that they are in the logs now.
    pub fn after_tick<P: Program>(&mut self, clock: u32, stations: &[P]) -> Result<(), Breach> {
        for vote in &self.due {
            let log = stations[usize::from(vote.station)].log();
            if log.get(vote.height as usize - 1) != Some(&vote.name) {
                return Err(Breach::Demand(format!(
                    "station {} voted at {} for height {}, is still in view {} and has not committed it at {clock}",
                    vote.station, vote.clock, vote.height, vote.view
                )));
            }
        }
        Ok(())
    }

    /// Looks at what a station did.
    pub fn see<P: Program>(&mut self, deed: &Deed, station: &P) -> Result<(), Breach> {
        if !self.plan.is_sound(deed.station) {
            return Ok(());
        }
        self.calls += 1;
        self.quits += u64::from(deed.before.1 == Phase::InView && deed.after.1 != Phase::InView);
        self.answered(deed)?;
        self.progress.see(deed).map_err(Breach::Progress)?;
        self.ahead += u64::from(deed.number == Refusal::Ahead.number());
        self.used_up += u64::from(deed.number == Refusal::UsedUp.number());
        self.note_said(deed);
        let commits = deed.effects.iter().filter(|e| matches!(e, Effect::Committed { .. })).count();
        if commits > 0 {
            self.commits += commits as u64;
            self.compare_log(deed, &station.log())?;
        }
        Ok(())
    }

    /// A sound station refuses nothing that a sound one sent; of the faulty ones' messages, those that
    /// are too far ahead, and votes of one who has opened as many tallies as one may.
    fn answered(&self, deed: &Deed) -> Result<(), Breach> {
        match deed.number {
            number if number == Refusal::Full.number() => Err(Breach::Full),
            _ if is_used_up(deed) && !is_expected(&self.plan, deed) => Err(Breach::UsedUp),
            _ if is_expected(&self.plan, deed) => Ok(()),
            number => Err(Breach::Demand(format!(
                "station {} answers {number} at {} to {:?}",
                deed.station, deed.clock, deed.call
            ))),
        }
    }

    /// Keeps what the station said of its own, and its votes for proposes.
    fn note_said(&mut self, deed: &Deed) {
        let mut on_propose = false;
        for &message in deed.to_all() {
            if message.author() == Some(deed.station) {
                self.said.insert(message.with_mask(0));
            }
            if let (Message::Vote { view, height, name, .. }, true) = (message, on_propose) {
                let (station, clock) = (deed.station, deed.clock);
                self.votes.push(Voted { station, clock, view, height, name });
                self.progress.voted(station, view);
            }
            on_propose = matches!(message, Message::Propose { .. });
        }
    }

    /// Holds a log that has grown against the longest one, and its growth against what was reported.
    fn compare_log(&mut self, deed: &Deed, log: &[Name]) -> Result<(), Breach> {
        let broken = |how: &str| {
            let (station, clock) = (deed.station, deed.clock);
            Err(Breach::Demand(format!("station {station} at {clock}: {how}")))
        };
        for effect in &deed.effects {
            let Effect::Committed { height, name } = effect else { continue };
            if log.get(*height as usize - 1) != Some(name) {
                return broken("it reports a commit that is not in its log");
            }
        }
        if log.iter().zip(&self.log).any(|(one, other)| one != other) {
            return broken("its log differs from another sound station's");
        }
        if log.len() > self.log.len() {
            self.log = log.to_vec();
        }
        Ok(())
    }

    /// Looks at what is sent: whatever names a sound station must have been said by it, and a name
    /// has one height and one parent.
    pub fn sent(&mut self, letter: &Letter) -> Result<(), Breach> {
        if !self.is_backed(&letter.message) || !self.is_one_block(&letter.message) {
            return Err(Breach::Premise(format!("{letter:?}")));
        }
        let message = letter.message;
        if let Message::NewView { .. } | Message::Propose { .. } = message {
            self.note_block(&message);
            let same = |known: &Message| known.with_mask(0) == message.with_mask(0);
            if !self.statements.iter().any(same) {
                self.statements.push(message);
            }
        }
        Ok(())
    }

    /// "a mask or author names a sound station only after it sent that vote or blame, or is the
    /// leader that made that statement"
    pub fn is_backed(&self, message: &Message) -> bool {
        message.claims().iter().all(|claim| {
            let author = claim.author().unwrap_or(0);
            !self.plan.is_sound(author) || self.said.contains(claim)
        })
    }

    /// "in all statements and offers, sound leaders' too, one name has one height and parent"
    pub fn is_one_block(&self, message: &Message) -> bool {
        let (height, name, parent) = match *message {
            Message::NewView { height, name, .. } => (height, name, None),
            Message::Propose { height, name, parent, .. } => (height, name, Some(parent)),
            _ => return true,
        };
        self.blocks.get(&name).is_none_or(|&(known, its)| {
            known == height && (parent.is_none() || its.is_none() || parent == its)
        })
    }

    fn note_block(&mut self, message: &Message) {
        if let Message::Propose { height, name, parent, .. } = *message {
            self.blocks.insert(name, (height, Some(parent)));
        }
    }

    /// The voters that a certificate of a block may name.
    pub fn voters(&self, view: u32, height: u32, name: Name) -> u16 {
        self.backers(|author| Message::Vote { view, height, name, author })
    }

    /// The blocks of a leader that have a rival of their view and height, enough votes and no child,
    /// with their voters.
    pub fn plantable(&self, leader: u8) -> Vec<(Block, u16)> {
        let all: Vec<(Block, Name)> = self
            .statements
            .iter()
            .filter_map(|statement| match *statement {
                Message::Propose { view, height, name, parent, author, .. } => {
                    (author == leader).then_some(((view, height, name), parent))
                }
                _ => None,
            })
            .collect();
        let rival = |one: Block, two: Block| (one.0, one.1) == (two.0, two.1) && one.2 != two.2;
        all.iter()
            .map(|&(block, _)| (block, self.voters(block.0, block.1, block.2)))
            .filter(|(_, mask)| mask.count_ones() >= self.plan.quorum())
            .filter(|&(block, _)| all.iter().any(|&(other, _)| rival(block, other)))
            .filter(|&(block, _)| all.iter().all(|&(_, parent)| parent != block.2))
            .collect()
    }

    /// The stations that a blame set of a view may name.
    pub fn blamers(&self, view: u32) -> u16 {
        self.backers(|author| Message::Blame { view, author })
    }

    fn backers(&self, saying: impl Fn(u8) -> Message) -> u16 {
        (0..self.plan.n)
            .filter(|&station| !self.plan.is_sound(station) || self.said.contains(&saying(station)))
            .fold(0, |mask, station| mask | 1 << station)
    }

    /// The longest sound log.
    pub fn log(&self) -> &[Name] {
        &self.log
    }
}
