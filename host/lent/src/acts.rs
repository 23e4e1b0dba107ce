//! What a message or an offer does, on the store's bytes. Refusals are found before anything is written.

use crate::bytes::{Name, eight, four, is_zero, key, name, put_four, put_two, two};
use crate::check::{Index, Statement, Tally, certified};
use crate::settings::{HEIGHTS, Settings};
use crate::wire::{self, Message, Out};
use crate::{Outcome, Refusal};
use station::Size;
use station::size::{BLAME, HEADER, NAME, OPENED, STATEMENT, TALLY};

/// The phases' numbers in the header: in a view, stopped; from `WAITING` on the quit clock.
pub const IN_VIEW: u32 = 0;
const FULL: u32 = 1;
pub const SPLIT: u32 = 2;
pub const LAST_CLOCK: u32 = 3;
pub const WAITING: u32 = 4;

/// A checked store in its parts, tables whole, and the out buffer.
pub struct Station<'a> {
    pub settings: Settings,
    pub header: &'a mut [u8; HEADER],
    pub statements: &'a mut [Statement],
    pub tallies: &'a mut [Tally],
    pub blames: &'a mut [[u8; BLAME]],
    pub log: &'a mut [Name],
    pub index: &'a Index,
    pub out: Out<'a>,
}

/// What a statement that is handled needs to know before anything is written.
pub struct Plan {
    statement: Statement,
    /// Whether it is stored already.
    held: bool,
    own: Option<usize>,
    certified: Option<usize>,
}

/// The parts.
impl<'a> Station<'a> {
    #[inline]
    pub fn of(size: Size, store: &'a mut [u8], index: &'a Index, out: &'a mut [u8]) -> Station<'a> {
        let (header, rest) = store.split_first_chunk_mut::<HEADER>().expect("a whole store");
        let (statements, rest) = rest.split_at_mut(STATEMENT * size.statements());
        let (tallies, rest) = rest.split_at_mut(TALLY * size.tallies());
        let (blames, log) = rest.split_at_mut(BLAME * size.views() as usize);
        Station {
            settings: Settings::of(size, header),
            header,
            statements: statements.as_chunks_mut().0,
            tallies: tallies.as_chunks_mut().0,
            blames: blames.as_chunks_mut().0,
            log: log.as_chunks_mut::<NAME>().0,
            index,
            out: Out::new(out),
        }
    }

    pub fn written(&self) -> u64 {
        self.out.written() as u64
    }

    pub fn phase(&self) -> u32 {
        four(self.header, 0)
    }

    pub fn is_stopped(&self) -> bool {
        (FULL..WAITING).contains(&self.phase())
    }

    pub fn view(&self) -> u32 {
        four(self.header, 8)
    }

    pub fn entry(&self) -> u32 {
        four(self.header, 12)
    }

    pub fn clock(&self) -> u32 {
        four(self.header, 16)
    }

    pub fn is_leader(&self) -> bool {
        self.settings.leader(self.view()) == self.settings.own
    }

    fn count(&self, at: usize) -> usize {
        two(self.header, at).into()
    }

    /// The stored statements.
    #[inline]
    pub fn stored(&self) -> &[Statement] {
        &self.statements[..self.count(62)]
    }

    /// The stored tallies.
    #[inline]
    pub fn tallied(&self) -> &[Tally] {
        &self.tallies[..self.count(64)]
    }

    pub fn logged(&self) -> usize {
        self.count(66)
    }

    pub fn blamed(&self, view: u32) -> u16 {
        u16::from_be_bytes(self.blames[view as usize - 1])
    }

    /// 6, 7 and 8 change the phase alone.
    pub fn stop(&mut self, phase: u32) -> Refusal {
        put_four(self.header, 0, phase);
        match phase {
            FULL => Refusal::Full,
            SPLIT => Refusal::Split,
            _ => Refusal::Clock,
        }
    }
}

/// Messages and offers.
impl Station<'_> {
    /// "4, 5, 6 for messages", with 11 and 12 after 5.
    #[inline]
    pub fn receive(&mut self, message: &[u8]) -> Outcome {
        let Some(message) = Message::read(message) else {
            return Err(Refusal::Unreadable);
        };
        if !message.is_allowed(&self.settings) {
            return Err(Refusal::NotAllowed);
        }
        if message.view().is_some_and(|view| view > self.view() + 1) {
            return Err(Refusal::Ahead);
        }
        match message {
            Message::NewView(m) => self.state(wire::new_view(
                four(m, 7),
                four(m, 14),
                name(m, 21),
                four(m, 56),
                two(m, 63),
                m[68],
            )),
            Message::Propose(m) => self.state(wire::propose(
                four(m, 7),
                four(m, 14),
                name(m, 21),
                name(m, 56),
                two(m, 91),
                m[96],
            )),
            Message::Vote(m) => self.join_vote(key(four(m, 7), four(m, 14)), name(m, 21), m[56]),
            Message::Blame(m) => {
                self.join_blame(four(m, 7), 1 << m[14]);
                Ok(())
            }
            Message::BlameSet(m) => {
                self.join_blame(four(m, 7), two(m, 14));
                Ok(())
            }
            // "a status for genesis in view 0 changes nothing"
            Message::Status(m) if four(m, 49) == 0 => Ok(()),
            Message::Status(m) => {
                self.join_status(key(four(m, 49), four(m, 7)), name(m, 14), two(m, 56))
            }
        }
    }

    /// "Offer of a name": 9, 6. "It makes the propose above that one, with the tally's mask, and handles it as received."
    #[inline]
    pub fn take(&mut self, offered: &Name) -> Outcome {
        let Some((top, mask)) = self.ground(offered) else { return Err(Refusal::NotTaken) };
        let top = &self.statements[top];
        let (view, height) = (four(top, 0), four(top, 4) + 1);
        let made = wire::propose(view, height, offered, name(top, 8), mask, self.settings.own);
        self.state(made)
    }

    /// The place of the statement that an offer of this name is put upon, and its tally's mask, if it is to be taken.
    fn ground(&self, offered: &Name) -> Option<(usize, u16)> {
        if self.phase() != IN_VIEW || !self.is_leader() || is_zero(offered) {
            return None;
        }
        let view = self.view();
        // the greatest height of the view, of one height the first place; and whether a new-view is there
        let (mut top, mut opened): (Option<(u32, usize)>, bool) = (None, false);
        for (place, old) in self.stored().iter().enumerate() {
            if name(old, 8) == offered || old[40] == 2 && name(old, 44) == offered {
                return None;
            }
            if four(old, 0) == view {
                opened |= old[40] == 1;
                if top.is_none_or(|(height, _)| height < four(old, 4)) {
                    top = Some((four(old, 4), place));
                }
            }
        }
        let (height, place) = top.filter(|(height, _)| opened && *height < HEIGHTS)?;
        let (key, block) = (key(view, height), name(&self.statements[place], 8));
        let tally = self.tally(key, block)?;
        let mask = two(&self.tallies[tally], 40);
        self.settings.full(mask).then_some((place, mask))
    }

    fn tally(&self, key: u64, name: &Name) -> Option<usize> {
        self.index.tally(self.tallied(), self.index.mix(key, name), key, name)
    }

    /// A vote: 12 before 6.
    fn join_vote(&mut self, key: u64, name: &Name, author: u8) -> Outcome {
        let mask = 1 << author;
        match self.tally(key, name) {
            Some(place) => self.grow(place, mask),
            None if self.index.opened(author) >= OPENED => return Err(Refusal::UsedUp),
            None => self.open_free(key, name, mask, author + 1)?,
        }
        Ok(())
    }

    fn join_status(&mut self, key: u64, name: &Name, mask: u16) -> Outcome {
        match self.tally(key, name) {
            Some(place) => self.grow(place, mask),
            None => self.open_free(key, name, mask, 0)?,
        }
        Ok(())
    }

    /// A statement, received or made here.
    fn state(&mut self, statement: Statement) -> Outcome {
        let plan = self.plan(statement)?;
        self.handle(plan);
        Ok(())
    }

    /// What a statement finds, or 6 where it needs a record that isn't free.
    #[inline]
    pub fn plan(&mut self, statement: Statement) -> Result<Plan, Refusal> {
        let (index, tallies) = (self.index, self.tallied());
        let (own, block) = (eight(&statement, 0), name(&statement, 8));
        let mix = index.mix(own, block);
        let held = index.has(self.stored(), mix, &statement);
        let (key, link) = certified(&statement);
        let genesis = key >> 32 == 0;
        let certified = match genesis {
            true => None,
            false => index.tally(tallies, index.mix(key, link), key, link),
        };
        let mut own_place = None;
        if !held {
            own_place = index.tally(tallies, mix, own, block);
            let opens =
                usize::from(!genesis && certified.is_none()) + usize::from(own_place.is_none());
            if self.count(62) == self.statements.len() || tallies.len() + opens > self.tallies.len()
            {
                return Err(self.stop(FULL));
            }
        }
        Ok(Plan { statement, held, own: own_place, certified })
    }

    /// "Its certificate mask joins its tally. If new, it is stored"; "if it is new, of the current view, and the station is
    /// in that view" it is acted on.
    #[inline]
    pub fn handle(&mut self, Plan { statement, held, own, certified }: Plan) {
        let mask = two(&statement, 42);
        if let Some(place) = certified {
            self.grow(place, mask);
        }
        if held {
            return;
        }
        let (key, link) = crate::check::certified(&statement);
        if certified.is_none() && key >> 32 != 0 {
            self.open(key, link, mask, 0);
        }
        let own = match own {
            Some(place) => place,
            None => self.open(eight(&statement, 0), name(&statement, 8), 0, 0),
        };
        let place = self.count(62);
        self.statements[place] = statement;
        put_two(self.header, 62, place as u16 + 1);
        if self.phase() != IN_VIEW || four(&statement, 0) != self.view() {
            return;
        }
        let earlier = &self.statements[..place];
        match earlier.iter().position(|old| conflict(old, &statement)) {
            Some(earliest) => self.quit_on_pair(earliest, place),
            None if statement[40] == 2 || key >= self.lock() => self.vote(place, own),
            None => {}
        }
    }

    /// The lock's rank.
    pub fn lock(&self) -> u64 {
        eight(self.header, 20)
    }

    /// "Voting sends the statement, then the vote, adds the own vote and notes the clock."
    #[inline]
    pub fn vote(&mut self, place: usize, tally: usize) {
        let clock = self.clock();
        let record = &mut self.statements[place];
        put_four(record, 76, clock + 1);
        self.out.statement(record);
        self.out.vote(record, self.settings.own);
        self.grow(tally, self.settings.own_bit());
    }

    /// "Blame, blame set join the view's mask; at f+1, while the station is in that view, it sends the set and quits."
    pub fn join_blame(&mut self, view: u32, mask: u16) {
        let joined = self.blamed(view) | mask;
        self.blames[view as usize - 1] = joined.to_be_bytes();
        if self.settings.full(joined) && view == self.view() && self.phase() == IN_VIEW {
            self.quit_on_set();
        }
    }

    pub fn quit_on_set(&mut self) {
        let view = self.view();
        self.out.blame_set(view, self.blamed(view));
        self.quit();
    }

    pub fn quit_on_pair(&mut self, earlier: usize, later: usize) {
        self.out.statement(&self.statements[earlier]);
        self.out.statement(&self.statements[later]);
        self.quit();
    }

    fn quit(&mut self) {
        let clock = self.clock();
        put_four(self.header, 0, WAITING + clock);
    }

    /// Joins voters to a tally; it keeps the clock at which it first has a quorum.
    #[inline]
    fn grow(&mut self, place: usize, mask: u16) {
        let clock = self.clock();
        let tally = &mut self.tallies[place];
        let joined = two(tally, 40) | mask;
        put_two(tally, 40, joined);
        if four(tally, 43) == 0 && self.settings.full(joined) {
            put_four(tally, 43, clock + 1);
        }
    }

    /// A tally behind the others, or 6 where there is no record free.
    fn open_free(&mut self, key: u64, name: &Name, mask: u16, opener: u8) -> Outcome {
        if self.count(64) == self.tallies.len() {
            return Err(self.stop(FULL));
        }
        self.open(key, name, mask, opener);
        Ok(())
    }

    fn open(&mut self, key: u64, name: &Name, mask: u16, opener: u8) -> usize {
        let place = self.count(64);
        let tally = &mut self.tallies[place];
        tally[..8].copy_from_slice(&key.to_be_bytes());
        tally[8..40].copy_from_slice(name);
        tally[42] = opener;
        put_two(self.header, 64, place as u16 + 1);
        self.grow(place, mask);
        place
    }
}

/// "Two different statements of one view conflict when: both are new-views; both are proposes of one height with different
/// names; or one is a new-view and the other a propose of no greater height"; and, by 02, "at adjacent heights, the upper a
/// propose whose parent is not the lower's name". The two are different.
#[inline]
pub fn conflict(one: &Statement, two: &Statement) -> bool {
    if one[..4] != two[..4] {
        return false;
    }
    let (low, high) = (four(one, 4), four(two, 4));
    let (low_new, high_new) = (one[40] == 1, two[40] == 1);
    let wrong_child = |upper: &Statement, lower: &Statement| {
        upper[40] == 2 && four(upper, 4) == four(lower, 4) + 1 && name(upper, 44) != name(lower, 8)
    };
    (match (low_new, high_new) {
        (true, true) => true,
        (false, false) => low == high && name(one, 8) != name(two, 8),
        (true, false) => high <= low,
        (false, true) => low <= high,
    }) || wrong_child(one, two)
        || wrong_child(two, one)
}
