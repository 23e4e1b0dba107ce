//! What a tick does, "in order": clock, commit, blame, the leader's new-view; or the entry into the next view.

use crate::acts::{IN_VIEW, LAST_CLOCK, Plan, SPLIT, Station, WAITING, conflict};
use crate::bytes::{eight, four, name, put_four, two};
use crate::check::Statement;
use crate::settings::CLOCK;
use crate::wire;
use crate::{Outcome, Refusal};
use station::Size;

/// A table of places of statements.
type Places = [u16; Size::Large.statements()];

/// What is due in a view: proposes voted for, and of those due the ones that the log doesn't hold for certain.
struct Due {
    voted: u32,
    count: usize,
    places: Places,
}

/// What the log gains: the places of the proposes, from the first height above it on.
struct Gained {
    count: usize,
    places: Places,
}

impl Station<'_> {
    /// One tick: 8, 7, 6.
    #[inline]
    pub fn tick(&mut self) -> Outcome {
        let clock = self.clock();
        if clock == CLOCK {
            return Err(self.stop(LAST_CLOCK));
        }
        let clock = clock + 1;
        match self.phase() {
            IN_VIEW => self.tick_in_view(clock)?,
            waiting => {
                put_four(self.header, 16, clock);
                let last = self.view() as usize == self.blames.len();
                if clock == waiting - WAITING + self.settings.d + 1 && !last {
                    self.enter(clock);
                }
            }
        }
        Ok(())
    }

    /// Commits, then the blame, then the leader's new-view; the last is planned before anything is written.
    fn tick_in_view(&mut self, clock: u32) -> Outcome {
        let due = self.due(clock);
        let gained = match due.count {
            0 => None,
            _ => Some(self.gained(&due)?),
        };
        let led = self.led(clock)?;
        put_four(self.header, 16, clock);
        if let Some(gained) = gained {
            self.commit(&gained);
        }
        let (view, own) = (self.view(), self.settings.own_bit());
        let patience = (2 * due.voted + 6) * self.settings.d + 2;
        if self.blamed(view) & own == 0 && clock - self.entry() >= patience {
            self.out.blame(view, self.settings.own);
            self.join_blame(view, own);
        }
        if let Some(plan) = led {
            self.handle(plan);
        }
        Ok(())
    }

    /// "every propose of this view voted for at least 2D+1 ticks ago". What the log's lowest names hold, in so far as they
    /// are first stored and linked, needs nothing more.
    fn due(&self, clock: u32) -> Due {
        let (view, wait, reach) = (self.view(), 2 * self.settings.d + 1, self.index.reach());
        let mut due = Due { voted: 0, count: 0, places: [0; Size::Large.statements()] };
        for (place, statement) in self.stored().iter().enumerate() {
            let vote = four(statement, 76);
            if four(statement, 0) != view || statement[40] != 2 || vote == 0 {
                continue;
            }
            due.voted += 1;
            // a vote is kept as one more than its clock
            if clock + 1 - vote >= wait && !self.is_settled(statement, reach) {
                due.places[due.count] = place as u16;
                due.count += 1;
            }
        }
        let key = |place: &u16| (four(&self.statements[usize::from(*place)], 4), *place);
        due.places[..due.count].sort_unstable_by_key(key);
        due
    }

    /// Whether a propose's chain is the log up to its height, for certain.
    #[inline]
    fn is_settled(&self, statement: &Statement, reach: usize) -> bool {
        let below = four(statement, 4) as usize - 1;
        below <= reach
            && below < self.logged()
            && self.log[below] == *name(statement, 8)
            && match below {
                0 => true,
                _ => self.log[below - 1] == *name(statement, 44),
            }
    }

    /// What the due blocks add to the log, or 7. "A block with an ancestor not stored is passed over".
    fn gained(&mut self, due: &Due) -> Result<Gained, Refusal> {
        let mut gained = Gained { count: 0, places: [0; Size::Large.statements()] };
        for &place in &due.places[..due.count] {
            match self.chain(place.into(), &mut gained) {
                Some(true) => return Err(self.stop(SPLIT)),
                Some(false) => {
                    let height = four(&self.statements[usize::from(place)], 4) as usize;
                    gained.count = gained.count.max(height.saturating_sub(self.logged()));
                }
                None => {}
            }
        }
        Ok(gained)
    }

    /// Walks a block's chain: whether a name of it differs from the log's, as it then stands; nothing if an ancestor isn't
    /// stored. Its places above the log are put behind what the log gained.
    fn chain(&self, place: usize, gained: &mut Gained) -> Option<bool> {
        let (stored, logged, reach) = (self.stored(), self.logged(), self.index.reach());
        let (mut place, mut differs) = (place, false);
        loop {
            let block = &stored[place];
            let height = four(block, 4) as usize;
            if height > stored.len() {
                return None;
            }
            if height <= logged {
                differs |= self.log[height - 1] != *name(block, 8);
            } else if height - logged > gained.count {
                gained.places[height - logged - 1] = place as u16;
            } else if usize::from(gained.places[height - logged - 1]) == place {
                return Some(differs);
            } else {
                let other = &stored[usize::from(gained.places[height - logged - 1])];
                differs |= name(other, 8) != name(block, 8);
            }
            let below = height - 1;
            let parent = name(block, 44);
            if below == 0 || below <= reach && self.log[below - 1] == *parent {
                return Some(differs);
            }
            place = self.index.propose(stored, below as u32, parent)?;
        }
    }

    /// Writes the log, and says what it gained by ascending height.
    fn commit(&mut self, gained: &Gained) {
        let logged = self.logged();
        for (i, &place) in gained.places[..gained.count].iter().enumerate() {
            let block = name(&self.statements[usize::from(place)], 8);
            self.log[logged + i] = *block;
            self.out.committed((logged + i) as u32 + 1, block);
        }
        let count = (logged + gained.count) as u16;
        self.header[66..68].copy_from_slice(&count.to_be_bytes());
    }

    /// "its leader at exactly entry+2D+1 makes a new-view from the highest certificate of an earlier view". A blame is
    /// not due at that clock, so the station is still in the view.
    fn led(&mut self, clock: u32) -> Result<Option<Plan>, Refusal> {
        if clock != self.entry() + 2 * self.settings.d + 1 || !self.is_leader() {
            return Ok(None);
        }
        let view = self.view();
        let highest = self.highest_certificate(view);
        let made = wire::new_view(
            view,
            four(&highest, 4),
            name(&highest, 8),
            four(&highest, 0),
            two(&highest, 40),
            self.settings.own,
        );
        self.plan(made).map(Some)
    }

    /// The highest certificate of a view earlier than this one, as a tally begins with it.
    fn highest_certificate(&self, view: u32) -> [u8; 42] {
        let mut highest = [0; 42];
        for tally in self.tallied() {
            let (key, best) = (eight(tally, 0), eight(&highest, 0));
            if four(tally, 0) < view
                && (key > best || key == best && name(tally, 8) < name(&highest, 8))
                && self.settings.full(two(tally, 40))
            {
                highest.copy_from_slice(&tally[..42]);
            }
        }
        highest
    }

    /// Enters the next view: locks, sends the status, then quits or votes.
    fn enter(&mut self, clock: u32) {
        let view = self.view() + 1;
        put_four(self.header, 0, IN_VIEW);
        put_four(self.header, 8, view);
        put_four(self.header, 12, clock);
        let highest = self.highest_certificate(view);
        self.header[20..62].copy_from_slice(&highest);
        if !self.is_leader() {
            self.out.status(self.settings.leader(view), &highest);
        }
        // "if both causes hold, the set only"
        if self.settings.full(self.blamed(view)) {
            self.quit_on_set();
        } else if let Some((earlier, later)) = self.stored_pair(view) {
            self.quit_on_pair(earlier, later);
        } else {
            self.vote_on_stored(view);
        }
    }

    /// Two stored statements of the view that conflict: "least place of the earlier, then of the later".
    fn stored_pair(&self, view: u32) -> Option<(usize, usize)> {
        let stored = self.stored();
        stored.iter().enumerate().find_map(|(earlier, old)| {
            if four(old, 0) != view {
                return None;
            }
            let later = stored[earlier + 1..].iter().position(|new| conflict(old, new))?;
            Some((earlier, earlier + 1 + later))
        })
    }

    /// "votes on stored statements of it by the rules above, new-view first, then by height, then by place".
    fn vote_on_stored(&mut self, view: u32) {
        let mut places: Places = [0; Size::Large.statements()];
        let mut count = 0;
        for (place, old) in self.stored().iter().enumerate() {
            let new_view = old[40] == 1;
            let ranks = || u64::from(four(old, 72)) << 32 | u64::from(four(old, 4));
            if four(old, 0) == view && (!new_view || ranks() >= self.lock()) {
                places[count] = place as u16;
                count += 1;
            }
        }
        let key = |place: &u16| {
            let old = &self.statements[usize::from(*place)];
            (old[40], four(old, 4), *place)
        };
        places[..count].sort_unstable_by_key(key);
        for &place in &places[..count] {
            let place = usize::from(place);
            let record = &self.statements[place];
            let (key, block) = (eight(record, 0), name(record, 8));
            let mix = self.index.mix(key, block);
            if let Some(tally) = self.index.tally(self.tallied(), mix, key, block) {
                self.vote(place, tally);
            }
        }
    }
}
