//! The station: its state, and what a message or an offer does. What a tick does is in `tick`.
//!
//! Refusals are found before anything changes. Statements, tallies and log are only ever added to,
//! so a record's place is good for as long as the station is.

use crate::refusal::{number, Cause, Outcome, Refusal};
use crate::settings::{bit, Limits, Settings};
use crate::wire::Message;
use crate::words::{Block, Made, Name, Statement, Tally};

/// "A station is in a view, waiting after a quit, or stopped with a cause."
#[derive(Clone, Copy, Debug, PartialEq, Eq)]
pub enum Phase {
    InView,
    Waiting { quit: u32 },
    Stopped(Cause),
}

/// A propose of the current view that was voted for: its place, and the clock that was noted.
#[derive(Clone, Copy, Debug, PartialEq, Eq)]
pub(crate) struct Voted {
    pub place: usize,
    pub clock: u32,
}

/// A committed block: its name, and the place of the propose by which it came into the log.
#[derive(Clone, Copy, Debug, PartialEq, Eq)]
pub(crate) struct Logged {
    pub name: Name,
    pub place: usize,
}

/// One station of a group.
#[derive(Clone, Debug, PartialEq, Eq)]
pub struct Station {
    pub(crate) settings: Settings,
    pub(crate) phase: Phase,
    pub(crate) view: u32,
    pub(crate) clock: u32,
    /// The clock at which the view was entered.
    pub(crate) entry: u32,
    pub(crate) lock: Block,
    pub(crate) statements: Vec<Statement>,
    /// The proposes of this view voted for, by height, then by place: the order of commits.
    pub(crate) voted: Vec<Voted>,
    pub(crate) tallies: Vec<Tally>,
    /// Who opened each tally: nobody, or the author of a vote.
    pub(crate) openers: Vec<Option<u8>>,
    /// When each tally was certified: the clock at which it first reached a quorum, or none.
    pub(crate) reached: Vec<Option<u32>>,
    /// The blame mask of each view, and one for view 0 that nobody joins.
    pub(crate) blames: Vec<u16>,
    /// The block of height h is entry h-1.
    pub(crate) log: Vec<Logged>,
}

/// The public calls. Each appends to `out` what it sends and answers 0, or answers a refusal's
/// number and leaves `out` as it was.
impl Station {
    /// "It starts in view 1, clock 0, lock on genesis."
    pub fn fresh(limits: Limits, n: u64, d: u64, own: u64) -> Result<Station, u32> {
        let settings = Settings::new(limits, n, d, own).map_err(|refusal| refusal as u32)?;
        Ok(Station {
            settings,
            phase: Phase::InView,
            view: 1,
            clock: 0,
            entry: 0,
            lock: Block::GENESIS,
            statements: Vec::with_capacity(limits.statements),
            voted: Vec::with_capacity(limits.statements),
            tallies: Vec::with_capacity(limits.tallies),
            openers: Vec::with_capacity(limits.tallies),
            reached: Vec::with_capacity(limits.tallies),
            blames: vec![0; limits.views as usize + 1],
            log: Vec::with_capacity(limits.statements),
        })
    }

    /// One message from another station.
    pub fn step(&mut self, message: &[u8], out: &mut Vec<u8>) -> u32 {
        number(self.receive(message, out))
    }

    /// One tick of the clock.
    pub fn tick(&mut self, out: &mut Vec<u8>) -> u32 {
        number(self.advance(out))
    }

    /// The offer of a name by the host.
    pub fn offer(&mut self, name: &[u8], out: &mut Vec<u8>) -> u32 {
        number(self.take(name, out))
    }
}

/// What a host may look at.
impl Station {
    pub fn settings(&self) -> &Settings {
        &self.settings
    }

    pub fn phase(&self) -> Phase {
        self.phase
    }

    pub fn view(&self) -> u32 {
        self.view
    }

    pub fn clock(&self) -> u32 {
        self.clock
    }

    pub fn entry(&self) -> u32 {
        self.entry
    }

    pub fn lock(&self) -> &Block {
        &self.lock
    }

    pub fn statements(&self) -> &[Statement] {
        &self.statements
    }

    pub fn tallies(&self) -> &[Tally] {
        &self.tallies
    }

    /// Who opened each tally: nobody, or the author of a vote.
    pub fn openers(&self) -> &[Option<u8>] {
        &self.openers
    }

    /// The clock at which each tally first reached a quorum, or none.
    pub fn reached(&self) -> &[Option<u32>] {
        &self.reached
    }

    /// "When was it certified?" The clock at which the tally of this block first reached a quorum; none
    /// without a quorum or without such a tally, as for genesis in view 0. Refusal 1 for a name of another
    /// length.
    pub fn certified(&self, view: u64, height: u64, name: &[u8]) -> Result<Option<u32>, u32> {
        let Ok(name) = <[u8; Name::BYTES]>::try_from(name) else {
            return Err(Refusal::Length as u32);
        };
        let (Ok(view), Ok(height)) = (view.try_into(), height.try_into()) else {
            return Ok(None);
        };
        let place = self.tally(&Block { view, height, name: Name::from_bytes(name) });
        Ok(place.and_then(|place| self.reached[place]))
    }

    /// The blame mask of a view; none outside the limits.
    pub fn blames(&self, view: u32) -> u16 {
        self.blames.get(view as usize).copied().unwrap_or(0)
    }

    /// The committed names, from height 1 on.
    pub fn log(&self) -> impl ExactSizeIterator<Item = Name> + '_ {
        self.log.iter().map(|logged| logged.name)
    }

    pub fn is_stopped(&self) -> bool {
        matches!(self.phase, Phase::Stopped(_))
    }

    pub fn is_leader(&self) -> bool {
        self.settings.leader(self.view) == self.settings.own()
    }
}

/// Messages and offers.
impl Station {
    /// "Order: 1, 2, 3, then 4, 5, 6 for messages"; 11 "comes right after 5, before 12 and 6"; 12 "is
    /// tested after 5 and before 6".
    fn receive(&mut self, message: &[u8], out: &mut Vec<u8>) -> Outcome {
        self.running()?;
        let Some(message) = Message::read(message) else {
            return Err(Refusal::Unreadable);
        };
        if !message.is_allowed(&self.settings) {
            return Err(Refusal::NotAllowed);
        }
        // "more than one view ahead of the view held or last quit"
        if message.view().is_some_and(|view| view > self.view + 1) {
            return Err(Refusal::Ahead);
        }
        match message {
            Message::Statement { statement, .. } => self.state(statement, out),
            Message::Vote { block, author } => {
                if self.tally(&block).is_none() && self.opened(author) >= Settings::OPENED {
                    return Err(Refusal::UsedUp);
                }
                self.join(Tally { block, mask: bit(author) }, Some(author))
            }
            Message::Status { certificate } => self.join(certificate, None),
            Message::Blame { view, author } => {
                self.join_blame(view, bit(author), out);
                Ok(())
            }
            Message::BlameSet { view, mask } => {
                self.join_blame(view, mask, out);
                Ok(())
            }
        }
    }

    /// "Offer of a name": 1, 3, then 9, 6. "It makes the propose above that one, with the tally's
    /// mask, and handles it as received."
    fn take(&mut self, name: &[u8], out: &mut Vec<u8>) -> Outcome {
        let Ok(name) = <[u8; Name::BYTES]>::try_from(name) else {
            return Err(Refusal::Length);
        };
        self.running()?;
        let name = Name::from_bytes(name);
        let Some(Tally { block: top, mask }) = self.ground(&name) else {
            return Err(Refusal::NotTaken);
        };
        let block = Block { height: top.height + 1, name, ..top };
        let made = Made::Propose { parent: top.name };
        self.state(Statement { block, mask, made }, out)
    }

    /// The certified tally that an offer of this name is put upon, if it is to be taken: "the
    /// station is in a view, leads it, has a new-view of that view stored, the greatest-height
    /// statement of the view is certified in this view, that height is below 65,535, and the name
    /// is neither zero nor the name or parent of any stored statement".
    fn ground(&self, name: &Name) -> Option<Tally> {
        if self.phase != Phase::InView || !self.is_leader() || !self.is_unused(name) {
            return None;
        }
        let of_view = || self.statements.iter().filter(|old| old.block.view == self.view);
        if !of_view().any(Statement::is_new_view) {
            return None;
        }
        // Of one height the first place counts.
        let top = of_view().reduce(
            |top, old| {
                if old.block.height > top.block.height {
                    old
                } else {
                    top
                }
            },
        )?;
        let tally = self.tallies[self.tally(&top.block)?];
        (self.settings.full(tally.mask) && top.block.height < Settings::HEIGHTS).then_some(tally)
    }

    /// "neither zero nor the name or parent of any stored statement".
    fn is_unused(&self, name: &Name) -> bool {
        !name.is_zero()
            && self
                .statements
                .iter()
                .all(|old| old.block.name != *name && old.parent() != Some(*name))
    }

    /// A statement, received or made here. "Its certificate mask joins its tally. If new, it is
    /// stored"; "if it is new, of the current view, and the station is in that view" it is acted on.
    pub(crate) fn state(&mut self, new: Statement, out: &mut Vec<u8>) -> Outcome {
        if self.statements.iter().any(|old| old.is_same(&new)) {
            return self.join(new.certificate(), None);
        }
        self.store(new)?;
        if self.phase != Phase::InView || new.block.view != self.view {
            return Ok(());
        }
        let place = self.statements.len() - 1;
        // "where it conflicts with a stored one, the station sends all the earliest stored
        // conflicting one, then this one, and quits"
        match self.statements[..place].iter().position(|old| old.conflicts(&new)) {
            Some(earliest) => self.quit_on_pair(earliest, place, out),
            None => self.consider(place, out),
        }
        Ok(())
    }

    /// Stores a new statement "with the mask as received, and tallies exist from now on for its
    /// certified block and its own block in its view"; or there is "no record free": 6.
    fn store(&mut self, new: Statement) -> Outcome {
        let certificate = new.certificate();
        let certified = self.tally(&certificate.block);
        let own = self.tally(&new.block);
        let opens_certified = certified.is_none() && certificate.block != Block::GENESIS;
        let opened = usize::from(opens_certified) + usize::from(own.is_none());
        let limits = self.settings.limits();
        if self.statements.len() == limits.statements
            || self.tallies.len() + opened > limits.tallies
        {
            return Err(self.stop(Cause::Full));
        }
        self.statements.push(new);
        if let Some(place) = certified {
            self.grow(place, certificate.mask);
        } else if opens_certified {
            self.open(certificate, None);
        }
        if own.is_none() {
            self.open(Tally { block: new.block, mask: 0 }, None);
        }
        Ok(())
    }

    /// "Vote, status join their tally, opened if missing (a status for genesis in view 0 changes
    /// nothing)." Of a vote the author opens it, of anything else nobody does.
    fn join(&mut self, joining: Tally, opener: Option<u8>) -> Outcome {
        if joining.block == Block::GENESIS {
            return Ok(());
        }
        if let Some(place) = self.tally(&joining.block) {
            self.grow(place, joining.mask);
        } else if self.tallies.len() == self.settings.limits().tallies {
            return Err(self.stop(Cause::Full));
        } else {
            self.open(joining, opener);
        }
        Ok(())
    }

    /// Voting on a new statement of the current view: "a propose is voted for".
    fn consider(&mut self, place: usize, out: &mut Vec<u8>) {
        let statement = self.statements[place];
        if statement.is_new_view() {
            self.vote_on_new_view(&statement, out);
        } else {
            self.note(place);
            self.vote(&statement, out);
        }
    }

    /// "a new-view is voted for if its certificate ranks at or above the lock"
    pub(crate) fn vote_on_new_view(&mut self, statement: &Statement, out: &mut Vec<u8>) {
        if statement.certificate().block.rank() >= self.lock.rank() {
            self.vote(statement, out);
        }
    }

    /// "Voting sends the statement, then the vote, adds the own vote".
    pub(crate) fn vote(&mut self, statement: &Statement, out: &mut Vec<u8>) {
        let block = statement.block;
        self.send(statement, out);
        Message::Vote { block, author: self.settings.own() }.to_all(out);
        // A stored statement's own tally is always there.
        if let Some(place) = self.tally(&block) {
            self.grow(place, self.settings.own_bit());
        }
    }

    /// Voting on a propose "notes the clock".
    pub(crate) fn note(&mut self, place: usize) {
        let key = |place: usize| (self.statements[place].block.height, place);
        let at = self.voted.partition_point(|earlier| key(earlier.place) < key(place));
        self.voted.insert(at, Voted { place, clock: self.clock });
    }

    /// "Blame, blame set join the view's mask; at f+1, while the station is in that view, it sends
    /// the set (the mask now held) and quits. Otherwise they are only kept."
    pub(crate) fn join_blame(&mut self, view: u32, mask: u16, out: &mut Vec<u8>) {
        let held = &mut self.blames[view as usize];
        *held |= mask;
        let full = self.settings.full(*held);
        if full && self.phase == Phase::InView && view == self.view {
            self.quit_on_set(out);
        }
    }

    pub(crate) fn quit_on_set(&mut self, out: &mut Vec<u8>) {
        let mask = self.blames[self.view as usize];
        Message::BlameSet { view: self.view, mask }.to_all(out);
        self.quit();
    }

    pub(crate) fn quit_on_pair(&mut self, earlier: usize, later: usize, out: &mut Vec<u8>) {
        self.send(&self.statements[earlier], out);
        self.send(&self.statements[later], out);
        self.quit();
    }

    /// "Quitting ends voting and commit timers of the view."
    fn quit(&mut self) {
        self.phase = Phase::Waiting { quit: self.clock };
        self.voted.clear();
    }

    /// Sends all a stored statement, with the mask as it was first received.
    fn send(&self, statement: &Statement, out: &mut Vec<u8>) {
        let author = self.settings.leader(statement.block.view);
        Message::Statement { statement: *statement, author }.to_all(out);
    }

    /// The place of a block's tally: "the first record that matches decides the search".
    fn tally(&self, block: &Block) -> Option<usize> {
        self.tallies.iter().position(|tally| tally.block == *block)
    }

    /// A tally is put behind the others, with who opened it.
    fn open(&mut self, tally: Tally, opener: Option<u8>) {
        self.tallies.push(tally);
        self.openers.push(opener);
        self.reached.push(None);
        self.look(self.tallies.len() - 1);
    }

    /// How many tallies an author has opened by vote messages.
    fn opened(&self, author: u8) -> usize {
        self.openers.iter().filter(|opener| **opener == Some(author)).count()
    }

    fn grow(&mut self, place: usize, mask: u16) {
        self.tallies[place] = self.tallies[place].joined(mask);
        self.look(place);
    }

    /// "Each tally should keep the clock at which it first reached a quorum in this store, or none."
    fn look(&mut self, place: usize) {
        let (reached, mask) = (&mut self.reached[place], self.tallies[place].mask);
        if reached.is_none() && self.settings.full(mask) {
            *reached = Some(self.clock);
        }
    }

    /// 3: "already stopped".
    pub(crate) fn running(&self) -> Outcome {
        if self.is_stopped() {
            return Err(Refusal::Stopped);
        }
        Ok(())
    }

    /// 6, 7 and 8 change the phase alone.
    pub(crate) fn stop(&mut self, cause: Cause) -> Refusal {
        self.phase = Phase::Stopped(cause);
        cause.refusal()
    }
}
