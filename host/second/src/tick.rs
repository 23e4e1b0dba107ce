//! What a tick does, "in order": clock, commit, blame, the leader's new-view; or the entry into the
//! next view.

use crate::refusal::{Cause, Outcome};
use crate::settings::Settings;
use crate::station::{Logged, Phase, Station};
use crate::wire::{committed, Message};
use crate::words::{Block, Made, Name, Statement, Tally};

impl Station {
    /// One tick: 3, then 8, 7, 6. A refused tick keeps the old clock and log.
    pub(crate) fn advance(&mut self, out: &mut Vec<u8>) -> Outcome {
        self.running()?;
        if self.clock == Settings::CLOCK {
            return Err(self.stop(Cause::Clock));
        }
        let (logged, written) = (self.log.len(), out.len());
        self.clock += 1;
        let outcome = self.act(out);
        if outcome.is_err() {
            self.clock -= 1;
            self.log.truncate(logged);
            out.truncate(written);
        }
        outcome
    }

    /// What is due at the clock. Before `lead` refuses, commits alone have happened: its moment is
    /// 2D+1 after the entry, a blame's 6D+2 or later.
    fn act(&mut self, out: &mut Vec<u8>) -> Outcome {
        match self.phase {
            Phase::InView => {
                self.commit(out)?;
                self.blame(out);
                self.lead(out)
            }
            Phase::Waiting { quit } => {
                let due = self.clock == quit + self.settings.entry_wait();
                if due && self.view < self.settings.limits().views {
                    self.enter(out);
                }
                Ok(())
            }
            Phase::Stopped(_) => Ok(()),
        }
    }

    /// "Commit: every propose of this view voted for at least 2D+1 ticks ago, by ascending height,
    /// then by place".
    fn commit(&mut self, out: &mut Vec<u8>) -> Outcome {
        let wait = self.settings.commit_wait();
        for i in 0..self.voted.len() {
            let voted = self.voted[i];
            if self.clock - voted.clock >= wait && !self.is_logged(voted.place) {
                self.commit_chain(voted.place, out)?;
            }
        }
        Ok(())
    }

    /// Whether the log came by this propose: then its whole chain is stored and is the log's, for
    /// good, and there is nothing more to commit.
    fn is_logged(&self, place: usize) -> bool {
        let index = self.statements[place].block.height as usize - 1;
        self.log.get(index).is_some_and(|logged| logged.place == place)
    }

    /// Logs the chain of one propose, "not yet logged ancestors" first. "A block with an ancestor
    /// not stored is passed over and tried at the next tick; otherwise any chain name that differs
    /// from the log's at its height, as the log then stands, gives refusal 7."
    fn commit_chain(&mut self, place: usize, out: &mut Vec<u8>) -> Outcome {
        let logged = self.log.len();
        let Some(differs) = self.gather_chain(place) else {
            self.log.truncate(logged);
            return Ok(());
        };
        if differs {
            return Err(self.stop(Cause::Split));
        }
        self.log[logged..].reverse();
        for (height, block) in self.log.iter().enumerate().skip(logged) {
            committed(height as u32 + 1, block.name, out);
        }
        Ok(())
    }

    /// "A block's chain runs from it to height 1, each parent being the first stored propose of
    /// that name, one height lower, of any view." Puts what is above the log behind it, highest
    /// first, and gives back whether another name differs from the log's; nothing, if an ancestor
    /// isn't stored.
    fn gather_chain(&mut self, place: usize) -> Option<bool> {
        let logged = self.log.len();
        let mut differs = false;
        let mut place = place;
        loop {
            let Statement { block, made, .. } = self.statements[place];
            let index = block.height as usize - 1;
            if index >= logged {
                self.log.push(Logged { name: block.name, place });
            } else if self.log[index].place == place {
                // The log came by this record, so the rest of the chain is stored and is the log's.
                return Some(differs);
            } else {
                differs |= self.log[index].name != block.name;
            }
            if block.height == 1 {
                return Some(differs);
            }
            let Made::Propose { parent } = made else { return None };
            place = self.first_propose(&parent, block.height - 1)?;
        }
    }

    /// The first stored propose of this name and height, of any view.
    fn first_propose(&self, name: &Name, height: u32) -> Option<usize> {
        self.statements.iter().position(|old| {
            old.block.height == height && old.block.name == *name && !old.is_new_view()
        })
    }

    /// "with its own bit clear in that view's blame mask, if clock minus entry is at least
    /// (2m+6)D+2, send a blame and join it to the mask; at f+1 send the set and quit".
    fn blame(&mut self, out: &mut Vec<u8>) {
        let Station { view, settings, .. } = *self;
        let blamed = self.blames[view as usize] & settings.own_bit() != 0;
        if !blamed && self.clock - self.entry >= settings.patience(self.voted.len()) {
            Message::Blame { view, author: settings.own() }.to_all(out);
            self.join_blame(view, settings.own_bit(), out);
        }
    }

    /// "still in the view, its leader at exactly entry+2D+1 makes a new-view from the highest
    /// certificate of an earlier view, handled as received".
    fn lead(&mut self, out: &mut Vec<u8>) -> Outcome {
        let due = self.clock == self.entry + self.settings.commit_wait();
        if !due || self.phase != Phase::InView || !self.is_leader() {
            return Ok(());
        }
        let Tally { block, mask } = self.highest_certificate();
        let made = Made::NewView { certificate_view: block.view };
        self.state(Statement { block: Block { view: self.view, ..block }, mask, made }, out)
    }

    /// The highest certificate of a view earlier than the current one.
    fn highest_certificate(&self) -> Tally {
        let mut highest = &Tally::GENESIS;
        for tally in &self.tallies {
            if tally.block.view < self.view
                && tally.block.is_higher(&highest.block)
                && self.settings.full(tally.mask)
            {
                highest = tally;
            }
        }
        *highest
    }

    /// Enters the next view: "locks on the highest certificate of an earlier view; sends it as
    /// status to the new leader unless it is the leader"; then quits or votes.
    fn enter(&mut self, out: &mut Vec<u8>) {
        self.view += 1;
        self.entry = self.clock;
        self.phase = Phase::InView;
        let certificate = self.highest_certificate();
        self.lock = certificate.block;
        if !self.is_leader() {
            let leader = self.settings.leader(self.view);
            Message::Status { certificate }.to_one(leader, out);
        }
        // "if both causes hold, the set only"
        if self.settings.full(self.blames[self.view as usize]) {
            self.quit_on_set(out);
        } else if let Some((earlier, later)) = self.stored_pair() {
            self.quit_on_pair(earlier, later, out);
        } else {
            self.vote_on_stored(out);
        }
    }

    /// Two stored statements of the view that conflict: "least place of the earlier, then of the
    /// later".
    fn stored_pair(&self) -> Option<(usize, usize)> {
        self.statements.iter().enumerate().find_map(|(earlier, old)| {
            if old.block.view != self.view {
                return None;
            }
            let after = &self.statements[earlier + 1..];
            let later = after.iter().position(|new| old.conflicts(new))?;
            Some((earlier, earlier + 1 + later))
        })
    }

    /// "votes on stored statements of it by the rules above, new-view first, then by height, then
    /// by place". No two of them conflict, so there is one new-view at most.
    fn vote_on_stored(&mut self, out: &mut Vec<u8>) {
        for place in 0..self.statements.len() {
            let old = self.statements[place];
            if old.block.view != self.view {
                continue;
            }
            if old.is_new_view() {
                self.vote_on_new_view(&old, out);
            } else {
                self.note(place);
            }
        }
        for i in 0..self.voted.len() {
            let propose = self.statements[self.voted[i].place];
            self.vote(&propose, out);
        }
    }
}

#[cfg(test)]
mod tests {
    use super::*;
    use crate::replay::Input;
    use crate::scripts::Script;
    use crate::settings::Limits;

    /// 8: "tick at clock 4,000,000,000". The tick before it is the last.
    #[test]
    fn the_clock_ends() {
        let mut station = Station::fresh(Limits::SMALL, 3, 1, 0).unwrap();
        station.phase = Phase::Waiting { quit: 0 };
        station.clock = Settings::CLOCK - 1;
        let mut out = Vec::new();
        assert_eq!((station.tick(&mut out), station.clock), (0, Settings::CLOCK));
        let before = Station { phase: Phase::Stopped(Cause::Clock), ..station.clone() };
        assert_eq!(station.tick(&mut out), 8);
        assert_eq!(station, before);
        assert_eq!(station.tick(&mut out), 3);
        assert_eq!(out, []);
    }

    /// 8 comes before a commit that is due, and messages are taken until then.
    #[test]
    fn the_clock_ends_before_the_commit() {
        let mut station = Station::fresh(Limits::SMALL, 3, 10_000, 0).unwrap();
        (station.clock, station.entry) = (Settings::CLOCK, Settings::CLOCK);
        let block = Block { view: 1, height: 1, name: Name::from_bytes([1; 32]) };
        let made = Made::Propose { parent: Name::ZERO };
        let statement = Statement { block, mask: 0b110, made };
        let mut message = Vec::new();
        Message::Statement { statement, author: 1 }.write(&mut message);
        let mut out = Vec::new();
        assert_eq!((station.step(&message, &mut out), out.len()), (0, 160));
        station.voted[0].clock = 0;
        assert_eq!(station.tick(&mut out), 8);
        assert!(station.log.is_empty());
    }

    /// The names of a whole chain from height 1, found as 01 says it; none if one is missing.
    fn chain(station: &Station, place: usize) -> Option<Vec<Name>> {
        let mut names = Vec::new();
        let mut at = station.statements[place];
        while at.block.height > 1 {
            names.insert(0, at.block.name);
            let parent = at.parent().unwrap();
            let mut proposes = station.statements.iter().filter(|old| old.parent().is_some());
            at = *proposes
                .find(|old| old.block.name == parent && old.block.height == at.block.height - 1)?;
        }
        names.insert(0, at.block.name);
        Some(names)
    }

    /// The log after the commits of the next tick, by whole chains; none for refusal 7.
    fn committed_log(station: &Station) -> Option<Vec<Name>> {
        let mut log: Vec<Name> = station.log().collect();
        let wait = 2 * station.settings.delay() + 1;
        let due = |clock| station.clock + 1 - clock >= wait;
        let mut places: Vec<usize> = station
            .voted
            .iter()
            .filter(|voted| due(voted.clock))
            .map(|voted| voted.place)
            .collect();
        places.sort_by_key(|&place| (station.statements[place].block.height, place));
        for names in places.into_iter().filter_map(|place| chain(station, place)) {
            if log.iter().zip(&names).any(|(logged, name)| logged != name) {
                return None;
            }
            log.extend(names.into_iter().skip(log.len()));
        }
        Some(log)
    }

    /// Stopping a walk at the log's own record changes nothing: whole chains give the same logs.
    #[test]
    fn commits_are_those_of_whole_chains() {
        let (mut commits, mut splits) = (0, 0);
        for seed in 5000..5400 {
            let mut script = Script::new(Limits::SMALL, seed);
            let mut before: Option<Station> = None;
            for event in script.by_ref().take(600).collect::<Vec<_>>() {
                let mut after =
                    before.clone().unwrap_or(Station::fresh(Limits::SMALL, 3, 1, 0).unwrap());
                match &event.input {
                    Input::Fresh { n, d, own } => {
                        after = Station::fresh(Limits::SMALL, *n, *d, *own).unwrap();
                    }
                    Input::Step(message) => drop(after.step(message, &mut Vec::new())),
                    Input::Offer(name) => drop(after.offer(name, &mut Vec::new())),
                    Input::Display | Input::Certified { .. } => {}
                    Input::Tick => {
                        let number = after.tick(&mut Vec::new());
                        let before = before.as_ref().unwrap();
                        let expected = match before.phase {
                            Phase::InView => committed_log(before),
                            _ => Some(before.log().collect()),
                        };
                        assert_eq!(expected.is_none(), number == 7);
                        if let (Some(expected), 0) = (expected, number) {
                            assert!(after.log().eq(expected));
                        }
                        commits += after.log.len() - before.log.len();
                        splits += usize::from(number == 7);
                    }
                }
                before = Some(after);
            }
        }
        assert!(commits > 1000 && splits > 100, "{commits} commits, {splits} splits");
    }
}
