//! A station that owns its store and its out buffer.

use crate::display::{self, Shown};
use crate::effect::Effects;
use crate::failure::Failure;
use crate::ffi;
use crate::journal::Report;
use crate::message::Name;
use crate::refusal::{Refusal, answer};
use crate::size::Size;
use crate::slot::{Input, SLOT};
use crate::store::{self, Lock, Phase};
use std::fmt;

/// One station of a group.
///
/// Three stations that agree on a block, with messages that take no time:
///
/// ```
/// use station::{Effect, Refusal, Size, Station};
///
/// let fresh = |own| Station::fresh(Size::Small, 3, 1, own);
/// let mut group = (0..3).map(fresh).collect::<Result<Vec<_>, _>>()?;
/// let mut sent = Vec::new(); // (from, what)
/// for clock in 1..=8 {
///     for (own, station) in group.iter_mut().enumerate() {
///         sent.extend(station.tick()?.map(|effect| (own, effect)));
///     }
///     if clock == 4 {
///         // Station 1 leads view 1, and has the votes for its new-view.
///         sent.extend(group[1].offer(&[7; 32])?.map(|effect| (1, effect)));
///     }
///     while let Some((from, effect)) = sent.pop() {
///         let Effect::ToAll(message) = effect else { continue };
///         for own in (0..3).filter(|&own| own != from) {
///             let effects = group[own].step(&message.encode())?;
///             sent.extend(effects.map(|effect| (own, effect)));
///         }
///     }
/// }
/// assert!(group.iter().all(|station| station.log() == [[7; 32]]));
/// # Ok::<(), Refusal>(())
/// ```
#[derive(Clone)]
pub struct Station {
    size: Size,
    /// Of the size's length, as the out buffer is.
    store: Vec<u8>,
    out: Vec<u8>,
}

/// The calls. Each gives back what it sends and commits, or a refusal. Before a host sends any of
/// it, the input is in its journal: what a station has said, it must not forget. A
/// [`Kept`](crate::Kept) station sees to that.
impl Station {
    /// A station in view 1 at clock 0: with the limits that all stations of its group have, one of
    /// `n`, which is odd and of 3 to 15, with the delay bound `d` of 1 to 10,000 ticks, and its own
    /// number below n. Refusal: 10.
    pub fn fresh(size: Size, n: u64, d: u64, own: u64) -> Result<Station, Refusal> {
        let mut station = Station::around(size, vec![0; size.store_length()]);
        answer(ffi::fresh(&mut station.store, n, d, own))?;
        Ok(station)
    }

    /// A message from another station, whose signatures the host has checked. Refusals: 3, 4, 5, 11,
    /// 12, 6.
    pub fn step(&mut self, message: &[u8]) -> Result<Effects<'_>, Refusal> {
        self.take(Input::Message(message))
    }

    /// One tick of the group's common clock. Refusals: 3, 8, 7, 6.
    pub fn tick(&mut self) -> Result<Effects<'_>, Refusal> {
        self.take(Input::Tick)
    }

    /// The name of a block to propose, if this station leads. Refusals: 3, 9, 6.
    ///
    /// ```
    /// use station::{Refusal, Size, Station};
    ///
    /// let mut station = Station::fresh(Size::Small, 3, 2, 0)?;
    /// assert_eq!(station.offer(&[1; 32]).err(), Some(Refusal::NotTaken));
    /// # Ok::<(), Refusal>(())
    /// ```
    pub fn offer(&mut self, name: &Name) -> Result<Effects<'_>, Refusal> {
        self.take(Input::Offer(name))
    }

    /// Any input.
    pub fn take(&mut self, input: Input<'_>) -> Result<Effects<'_>, Refusal> {
        let count = self.call(input)?;
        Ok(self.said(count))
    }

    /// The call of an input: how many bytes it wrote, or the refusal.
    pub(crate) fn call(&mut self, input: Input<'_>) -> Result<usize, Refusal> {
        let (store, out) = (&mut self.store, &mut self.out);
        answer(match input {
            Input::Tick => ffi::tick(store, out),
            Input::Offer(name) => ffi::offer(store, name, out),
            Input::Message(message) => ffi::step(store, message, out),
        })
    }

    /// What the last call wrote, if that was so many bytes.
    pub(crate) fn said(&self, count: usize) -> Effects<'_> {
        Effects::new(&self.out[..count])
    }

    fn around(size: Size, store: Vec<u8>) -> Station {
        Station { size, store, out: vec![0; size.out_length()] }
    }
}

/// Keeping a station.
impl Station {
    /// The store's bytes, to be kept on disk.
    ///
    /// ```
    /// use station::{Size, Station};
    ///
    /// let mut station = Station::fresh(Size::Small, 3, 2, 1)?;
    /// for _ in 1..=5 {
    ///     station.tick()?;
    /// }
    /// let kept = station.store().to_vec();
    /// let again = Station::from_store(&kept)?;
    /// assert_eq!((again.clock(), again.view(), again.own()), (5, 1, 1));
    /// # Ok::<(), station::Refusal>(())
    /// ```
    pub fn store(&self) -> &[u8] {
        &self.store
    }

    /// The station of a kept store, stopped ones too; its size is that of the store. Refusals: 1 if
    /// no size has this length, 2 if the bytes are not well formed.
    pub fn from_store(bytes: &[u8]) -> Result<Station, Refusal> {
        let size = Size::of_store(bytes.len()).ok_or(Refusal::Length)?;
        let mut station = Station::around(size, bytes.to_vec());
        // No message is empty: the answer says what was found before the message was looked at.
        match station.step(&[]) {
            Err(Refusal::Stopped | Refusal::Unreadable) => Ok(station),
            Err(refusal) => Err(refusal),
            Ok(_) => unreachable!("an empty message is unreadable"),
        }
    }
}

/// A station and its journal.
impl Station {
    /// Hands over every whole record of a journal: of all its slots, from the first on. A fresh station
    /// is then as the one that wrote them was when it was cut; see [`Journal`](crate::Journal), which
    /// replays a file. Refusals: 13, with the report, where a slot can't be read or is not of this
    /// station, which then has the records before it; 1 for 2^32 slots or more.
    ///
    /// ```
    /// use station::{Input, Report, SLOT, Size, Station, ffi};
    ///
    /// let mut journal = [0; 4 * SLOT];
    /// journal[2] = 4; // a torn slot
    /// assert_eq!(ffi::journal_write(&mut journal, Input::Tick.kind().into(), &[]), 1);
    ///
    /// let mut station = Station::fresh(Size::Small, 3, 2, 0)?;
    /// let report = station.replay(&journal)?;
    /// assert_eq!(report, Report { records: 1, end: 2, torn: vec![0] });
    /// assert_eq!(station.clock(), 1);
    /// # Ok::<(), station::Failure>(())
    /// ```
    pub fn replay(&mut self, journal: &[u8]) -> Result<Report, Failure> {
        let mut report = vec![0; Report::length(journal.len() / SLOT)];
        let result = ffi::journal_replay(journal, &mut self.store, &mut self.out, &mut report);
        match answer(result) {
            Ok(_) => Ok(Report::read(&report)),
            Err(Refusal::Journal) => Err(Failure::Damaged(Report::read(&report))),
            Err(refusal) => Err(refusal.into()),
        }
    }

    /// Takes up a store that this station had before.
    pub(crate) fn go_back(&mut self, store: &[u8]) {
        self.store.copy_from_slice(store);
    }
}

/// What a host may look at.
impl Station {
    /// Which limits it goes by.
    pub fn size(&self) -> Size {
        self.size
    }

    /// n, the count of stations.
    pub fn stations(&self) -> u32 {
        store::number(&self.store, store::STATIONS)
    }

    /// D, the delay bound in ticks.
    pub fn delay(&self) -> u32 {
        store::number(&self.store, store::DELAY)
    }

    /// Its own number.
    pub fn own(&self) -> u32 {
        store::number(&self.store, store::OWN)
    }

    pub fn phase(&self) -> Phase {
        store::phase(&self.store)
    }

    /// The view that it is in, or was in last.
    pub fn view(&self) -> u32 {
        store::number(&self.store, store::VIEW)
    }

    /// The clock at which it entered that view.
    pub fn entry(&self) -> u32 {
        store::number(&self.store, store::ENTRY)
    }

    pub fn clock(&self) -> u32 {
        store::number(&self.store, store::CLOCK)
    }

    pub fn lock(&self) -> Lock {
        store::lock(&self.store)
    }

    /// How many records of the [`Size::statements`] that it has room for are used.
    pub fn statements(&self) -> usize {
        store::number(&self.store, store::STATEMENT_COUNT) as usize
    }

    /// How many records of the [`Size::tallies`] that it has room for are used.
    pub fn tallies(&self) -> usize {
        store::number(&self.store, store::TALLY_COUNT) as usize
    }

    /// The committed names, from height 1 on.
    pub fn log(&self) -> &[Name] {
        store::log(self.size, &self.store)
    }

    /// What a wall display shows, by place in the store: the proposes voted for in its view and not in
    /// the log yet, each with the ticks left until its commit is due. Waiting or stopped it shows none.
    ///
    /// ```
    /// use station::{GENESIS, Message, Size, Station};
    ///
    /// let mut station = Station::fresh(Size::Small, 3, 2, 2)?;
    /// let (parent, mask) = (GENESIS, 0b011);
    /// let propose = Message::Propose { view: 1, height: 1, name: [7; 32], parent, mask, author: 1 };
    /// station.step(&propose.encode())?;
    /// for left in [5, 4, 3, 2, 1] {
    ///     assert_eq!(station.display()[0].ticks_left, left);
    ///     station.tick()?;
    /// }
    /// assert_eq!((station.display().len(), station.log()), (0, &[[7; 32]][..]));
    /// # Ok::<(), station::Refusal>(())
    /// ```
    pub fn display(&self) -> Vec<Shown> {
        let mut out = vec![0; self.size.out_length()];
        let count = answer(ffi::display(&self.store, &mut out)).expect("a well-formed store");
        display::read(&out[..count])
    }

    /// When it saw a block certified in a view: the clock at which f+1 stations had first voted there, as
    /// far as it knew. None as long as they haven't, and for genesis in view 0, which needs no votes.
    /// A stopped station tells it too.
    ///
    /// ```
    /// use station::{Message, Size, Station};
    ///
    /// let mut station = Station::fresh(Size::Small, 3, 2, 2)?;
    /// let vote = |author| Message::Vote { view: 1, height: 1, name: [7; 32], author }.encode();
    /// station.step(&vote(0))?;
    /// station.tick()?;
    /// assert_eq!(station.certified(1, 1, &[7; 32]), None);
    /// station.step(&vote(1))?;
    /// station.tick()?;
    /// assert_eq!(station.certified(1, 1, &[7; 32]), Some(1));
    /// # Ok::<(), station::Refusal>(())
    /// ```
    pub fn certified(&self, view: u32, height: u32, name: &Name) -> Option<u32> {
        let result = ffi::certified(&self.store, view.into(), height.into(), name);
        let count = answer(result).expect("a well-formed store");
        // 0 for none, else one more than the clock
        count.checked_sub(1).map(|clock| clock as u32)
    }

    /// The slip of a logged block, for [`Slip::check`](crate::Slip::check); a stopped station has
    /// them too. Refusal: 15.
    pub fn slip(&self, name: &Name) -> Result<Vec<u8>, Refusal> {
        let mut out = vec![0; self.size.out_length()];
        let count = answer(ffi::slip_write(&self.store, name, &mut out))?;
        out.truncate(count);
        Ok(out)
    }

    /// Whether it leads its view: "The leader of view v is v mod n."
    pub fn is_leader(&self) -> bool {
        self.view() % self.stations() == self.own()
    }
}

impl fmt::Debug for Station {
    fn fmt(&self, f: &mut fmt::Formatter<'_>) -> fmt::Result {
        f.debug_struct("Station")
            .field("size", &self.size)
            .field("own", &self.own())
            .field("phase", &self.phase())
            .field("view", &self.view())
            .field("clock", &self.clock())
            .field("statements", &self.statements())
            .field("tallies", &self.tallies())
            .field("logged", &self.log().len())
            .finish_non_exhaustive()
    }
}
