//! A group of three kept stations in one process, which may be killed at any moment and started again:
//!
//!     outage DIRECTORY CARDS
//!
//! On a start each station is taken up from its journal, or begun. What it ever said is worked out
//! again from its inputs, and what the others don't have yet is sent to them: so nobody notices the
//! cut. It ends when every log has so many cards. `tests/kill.rs` reads what is printed, a line for each
//! thing: what a start found (`start OWN RECORDS TORN`, `log OWN HEIGHT NAME`, `started`), then each
//! input once it is kept (`kept OWN RECORDS`) and each commit once it is let out (`commit OWN HEIGHT
//! NAME`), and at the end `done`.

use programs::words;
use station::{Effect, Failure, Input, Kept, Name, Size, Slot, Station};
use std::collections::{HashSet, VecDeque};
use std::path::{Path, PathBuf};
use std::{env, fs, io};

const STATIONS: u8 = 3;
const DELAY: u64 = 1;
/// So few that journals are lengthened all the time.
const SLOTS: u32 = 16;

/// What is on its way: to whom, and its bytes.
type Post = VecDeque<(u8, Vec<u8>)>;

struct Member {
    own: u8,
    kept: Kept,
    /// The messages that it has.
    has: HashSet<Vec<u8>>,
    offers: usize,
}

impl Member {
    /// A station from its journal, or a new one.
    fn start(own: u8, path: &Path, post: &mut Post) -> Result<Member, Failure> {
        let (n, d) = (u64::from(STATIONS), DELAY);
        if !path.exists() {
            let kept = Kept::begin(path, SLOTS, Size::Small, n, d, own.into())?;
            return Ok(Member { own, kept, has: HashSet::new(), offers: 0 });
        }
        let (kept, report) = Kept::resume(path, Size::Small, n, d, own.into())?;
        println!("start {own} {} {}", report.records, report.torn.len());
        for (height, name) in (1..).zip(kept.station().log()) {
            println!("log {own} {height} {}", words::name(*name));
        }
        let mut member = Member { own, kept, has: HashSet::new(), offers: 0 };
        member.say_again(&fs::read(path)?, post);
        Ok(member)
    }

    /// Sends again all that it ever said, and notes what it has.
    fn say_again(&mut self, journal: &[u8], post: &mut Post) {
        let Member { own, kept, has, offers } = self;
        let mut station = Station::fresh(Size::Small, STATIONS.into(), DELAY, u64::from(*own))
            .expect("as before");
        for input in Slot::inputs(journal) {
            match input {
                Input::Tick => {}
                Input::Offer(_) => *offers += 1,
                Input::Message(message) => drop(has.insert(message.to_vec())),
            }
            let effects = station.take(input).expect("as before");
            effects.for_each(|effect| send(*own, effect, post));
        }
        assert_eq!(station.store(), kept.station().store(), "a replay is the same calls");
    }

    /// One input: what it makes the station say goes out, since the record is on the disk.
    fn take(&mut self, input: Input<'_>, post: &mut Post) -> Result<(), Failure> {
        if self.kept.journal().room() == 0 {
            self.kept.lengthen(SLOTS)?;
        }
        let effects: Vec<Effect> = self.kept.take(input)?.collect();
        let own = self.own;
        println!("kept {own} {}", self.kept.journal().records());
        for effect in effects {
            if let Effect::Committed { height, name } = effect {
                println!("commit {own} {height} {}", words::name(name));
            }
            send(own, effect, post);
        }
        Ok(())
    }

    fn clock(&self) -> u32 {
        self.kept.station().clock()
    }
}

fn send(own: u8, effect: Effect, post: &mut Post) {
    match effect {
        Effect::ToAll(message) => {
            let others = (0..STATIONS).filter(|&to| to != own);
            post.extend(others.map(|to| (to, message.encode())));
        }
        Effect::ToOne { station, message } => post.push_back((station, message.encode())),
        Effect::Committed { .. } => {}
    }
}

/// The name of a card, which no other has.
fn card(number: usize) -> Name {
    let mixed = (number as u64 + 1).wrapping_mul(0x9e37_79b9_7f4a_7c15).to_be_bytes();
    std::array::from_fn(|place| mixed[place % 8] ^ place as u8)
}

fn run(directory: &Path, cards: usize) -> Result<(), Failure> {
    let mut post = Post::new();
    let path = |own| -> PathBuf { directory.join(format!("station-{own}.journal")) };
    let group = (0..STATIONS).map(|own| Member::start(own, &path(own), &mut post));
    let mut group = group.collect::<Result<Vec<Member>, Failure>>()?;
    println!("started");
    loop {
        // Ticks are common: those that the cut kept from one come first.
        let clock = group.iter().map(Member::clock).max().unwrap_or(0);
        for member in group.iter_mut().filter(|member| member.clock() < clock) {
            member.take(Input::Tick, &mut post)?;
        }
        deliver(&mut group, &mut post)?;
        if group.iter().all(|member| member.kept.station().log().len() >= cards) {
            println!("done");
            return Ok(());
        }
        offer(&mut group, cards, &mut post)?;
        deliver(&mut group, &mut post)?;
        for member in &mut group {
            member.take(Input::Tick, &mut post)?;
        }
    }
}

/// Hands over what is on its way, and what comes of it.
fn deliver(group: &mut [Member], post: &mut Post) -> Result<(), Failure> {
    while let Some((to, message)) = post.pop_front() {
        let member = &mut group[usize::from(to)];
        if !member.has.contains(&message) {
            member.take(Input::Message(&message), post)?;
            member.has.insert(message);
        }
    }
    Ok(())
}

/// The leader offers the next card, if there is one.
fn offer(group: &mut [Member], cards: usize, post: &mut Post) -> Result<(), Failure> {
    let offers = group.iter().map(|member| member.offers).sum();
    let leader = group.iter_mut().find(|member| member.kept.station().is_leader());
    let Some(leader) = leader.filter(|_| offers < cards) else { return Ok(()) };
    match leader.take(Input::Offer(&card(offers)), post) {
        Ok(()) => leader.offers += 1,
        // not yet: it has no votes for its last one
        Err(failure) if failure.number() == Some(9) => {}
        Err(failure) => return Err(failure),
    }
    Ok(())
}

fn main() -> io::Result<()> {
    let words: Vec<String> = env::args().skip(1).collect();
    let [directory, cards] = &words[..] else {
        return Err(io::Error::other("outage DIRECTORY CARDS"));
    };
    let cards = cards.parse().map_err(io::Error::other)?;
    run(Path::new(directory), cards).map_err(io::Error::from)
}
