//! Scripts of inputs for one station, made from a seed: plausible messages for its view and stored
//! names, conflicts, damaged bytes, ticks and offers. Each comes with this program's answer, so that
//! another program can be driven by the inputs and held to the answers.
//!
//! `Script::new(limits, seed)` is an iterator of events. The first is the fresh start; it ends some inputs
//! after the station has stopped. The same seed and limits give the same events.

use crate::random::Random;
use crate::replay::{Event, Input, Run};
use crate::settings::{bit, Limits, Settings};
use crate::station::{Phase, Station};
use crate::wire::Message;
use crate::words::{Block, Made, Name, Statement, Tally};

/// What the next input is to be.
#[derive(Clone, Copy, Debug)]
enum Move {
    /// Ticks, to about the next moment at which something is due.
    Ticks,
    /// A new-view, of a certificate that is known or made up.
    NewView,
    /// A propose above the top of its view.
    Propose,
    /// A statement at odds with a stored one.
    Rival,
    /// The missing parent of a stored propose.
    Filler,
    Vote,
    Status,
    Blame,
    BlameSet,
    /// A stored statement with another mask.
    Repeat,
    Offer,
    /// Bytes that can't be read, mostly.
    Damage,
    /// A message with one number at or over an edge.
    Edge,
}

const MOVES: [Move; 13] = [
    Move::Ticks,
    Move::NewView,
    Move::Propose,
    Move::Rival,
    Move::Filler,
    Move::Vote,
    Move::Status,
    Move::Blame,
    Move::BlameSet,
    Move::Repeat,
    Move::Offer,
    Move::Damage,
    Move::Edge,
];

/// A way to play; a seed takes one of `STYLES`.
#[derive(Clone, Copy, Debug)]
struct Style {
    /// How likely each move is, in the order of `MOVES`.
    weights: [u64; MOVES.len()],
    /// One in so many statements strays from what the log and the view's statements ask for.
    stray: u64,
}

const STYLES: [Style; 7] = [
    // Steady: views that get somewhere.
    Style { weights: [24, 6, 24, 0, 1, 40, 12, 0, 0, 3, 30, 0, 0], stray: 60 },
    // Mixed: something of everything.
    Style { weights: [24, 8, 14, 3, 6, 16, 4, 3, 1, 4, 8, 4, 5], stray: 15 },
    // Quarrel: conflicts, logs that split.
    Style { weights: [34, 8, 16, 8, 10, 8, 3, 1, 1, 6, 5, 0, 0], stray: 3 },
    // Haste: one view after another.
    Style { weights: [40, 8, 12, 1, 2, 12, 5, 6, 6, 2, 4, 0, 0], stray: 40 },
    // Crowd: records run out.
    Style { weights: [2, 8, 30, 1, 10, 60, 20, 0, 0, 4, 4, 0, 0], stray: 10 },
    // Silence: ticks, and little else.
    Style { weights: [80, 2, 4, 0, 1, 4, 1, 1, 0, 1, 4, 0, 1], stray: 30 },
    // Noise: bytes that are wrong.
    Style { weights: [12, 6, 12, 1, 4, 8, 4, 2, 1, 4, 6, 30, 40], stray: 20 },
];

/// Inputs that still come after the station has stopped.
const AFTER_STOP: u32 = 6;

/// A script under way.
#[derive(Clone, Debug)]
pub struct Script {
    limits: Limits,
    random: Random,
    style: Style,
    /// Whether station 0 votes for made-up names, again and again.
    is_rude: bool,
    run: Run,
    /// Events so far.
    count: usize,
    /// Ticks to come before the next move.
    ticks: u32,
    /// Names made up so far.
    names: u32,
    after_stop: u32,
}

impl Iterator for Script {
    type Item = Event;

    fn next(&mut self) -> Option<Event> {
        let mut run = std::mem::replace(&mut self.run, Run::new(self.limits));
        let input = match run.station() {
            None => Some(self.settings()),
            Some(station) => self.input(station),
        };
        let answer = input.as_ref().and_then(|input| run.answer(input));
        self.run = run;
        self.count += 1;
        Some(Event { line: 2 * self.count - 1, input: input?, answer: answer? })
    }
}

impl Script {
    pub fn new(limits: Limits, seed: u64) -> Script {
        let mut random = Random::new(seed);
        let (style, is_rude) = (random.pick(&STYLES), seed % 8 == 7);
        let run = Run::new(limits);
        Script { limits, random, style, is_rude, run, count: 0, ticks: 0, names: 0, after_stop: 0 }
    }

    /// The station as it stands after the last event.
    pub fn station(&self) -> Option<&Station> {
        self.run.station()
    }

    fn settings(&mut self) -> Input {
        let n = self.random.pick(&[3, 3, 3, 5, 5, 7, 15]);
        let d = self.random.pick(&[1, 1, 1, 2, 2, 3, 5]);
        Input::Fresh { n, d, own: self.random.below(n) }
    }

    /// The next input for a station as it stands, which needn't be this script's own; none at the end.
    pub fn input(&mut self, station: &Station) -> Option<Input> {
        if station.is_stopped() {
            self.after_stop += 1;
            if self.after_stop > AFTER_STOP {
                return None;
            }
        }
        if self.ticks > 0 {
            self.ticks -= 1;
            return Some(Input::Tick);
        }
        let chosen = self.choose(station);
        Some(self.play(chosen, station))
    }

    fn choose(&mut self, station: &Station) -> Move {
        let chosen = MOVES[self.random.weighted(&self.style.weights)];
        let limits = station.settings().limits();
        let full = station.statements().len() == limits.statements
            || station.tallies().len() == limits.tallies;
        let leads = station.phase() == Phase::InView && station.is_leader();
        match chosen {
            // With no record free, ticks and offers are to find that too, not messages alone.
            _ if full && !self.random.one_in(8) => {
                self.random.pick(&[Move::Ticks, Move::Offer, Move::Repeat, Move::BlameSet])
            }
            // A leader's blocks come by offers too.
            Move::Propose if leads && self.random.one_in(2) => Move::Offer,
            _ => chosen,
        }
    }

    fn play(&mut self, chosen: Move, station: &Station) -> Input {
        match chosen {
            Move::Ticks => {
                self.ticks = self.pause(station);
                Input::Tick
            }
            Move::Offer => Input::Offer(self.offered(station)),
            Move::Damage => {
                let message = self.any_message(station);
                Input::Step(self.damaged(message))
            }
            Move::Edge => {
                let message = self.any_message(station);
                Input::Step(self.at_edge(message, station.settings()))
            }
            _ => Input::Step(bytes(&self.message(chosen, station))),
        }
    }

    fn any_message(&mut self, station: &Station) -> Vec<u8> {
        const MESSAGES: [Move; 7] = [
            Move::NewView,
            Move::Propose,
            Move::Vote,
            Move::Status,
            Move::Blame,
            Move::BlameSet,
            Move::Repeat,
        ];
        let chosen = self.random.pick(&MESSAGES);
        bytes(&self.message(chosen, station))
    }

    fn message(&mut self, chosen: Move, station: &Station) -> Message {
        let settings = station.settings();
        match chosen {
            Move::NewView => said(self.new_view(station), settings),
            Move::Propose => said(self.propose(station), settings),
            Move::Rival => said(self.rival(station), settings),
            Move::Filler => said(self.filler(station), settings),
            Move::Repeat => said(self.repeat(station), settings),
            Move::Status => Message::Status { certificate: self.certificate(station) },
            Move::Blame => {
                Message::Blame { view: self.view(station), author: self.author(settings) }
            }
            Move::BlameSet => {
                Message::BlameSet { view: self.view(station), mask: self.quorum(settings) }
            }
            _ if self.is_rude && self.random.one_in(2) => {
                Message::Vote { block: self.made_up(station), author: 0 }
            }
            _ => Message::Vote { block: self.block(station), author: self.author(settings) },
        }
    }
}

/// What messages are made of.
impl Script {
    /// A view: the current one mostly, the next, or any.
    fn view(&mut self, station: &Station) -> u32 {
        let views = station.settings().limits().views;
        let view = match self.random.below(12) {
            0 | 1 => station.view() + 1,
            2 => station.view() + 2,
            3 => station.view() - 1,
            4 => 1 + self.random.below(u64::from(views)) as u32,
            _ => station.view(),
        };
        view.clamp(1, views)
    }

    fn author(&mut self, settings: &Settings) -> u8 {
        self.random.below(u64::from(settings.stations())) as u8
    }

    /// A mask of at least f+1 stations.
    fn quorum(&mut self, settings: &Settings) -> u16 {
        let everyone = (1u32 << settings.stations()) - 1;
        let mut mask = (self.random.number() as u32 & everyone) as u16;
        while !settings.full(mask) {
            mask |= bit(self.author(settings));
        }
        mask
    }

    /// A name not used before. Some differ from others in one late byte alone.
    fn name(&mut self) -> Name {
        self.names += 1;
        let mut name = [0x5a; Name::BYTES];
        let place = self.random.pick(&[0, 7, 8, 12, 28]);
        name[place..place + 4].copy_from_slice(&self.names.to_le_bytes());
        if place > 0 && self.random.one_in(2) {
            name[0] = self.random.below(256) as u8;
        }
        Name::from_bytes(name)
    }

    fn height(&mut self) -> u32 {
        match self.random.below(30) {
            0 => Settings::HEIGHTS - self.random.below(2) as u32,
            1..=9 => 0,
            _ => 1 + self.random.below(5) as u32,
        }
    }

    /// A block with votes or a statement, or a made-up one.
    fn block(&mut self, station: &Station) -> Block {
        let (statements, tallies) = (station.statements(), station.tallies());
        let top = top(station, station.view());
        match (self.random.below(12), top) {
            (0..=4, Some(top)) => top,
            (5..=8, Some(_)) => self.random.pick(statements).block,
            (9..=10, _) if !tallies.is_empty() => self.random.pick(tallies).block,
            _ => self.made_up(station),
        }
    }

    fn made_up(&mut self, station: &Station) -> Block {
        let (view, height) = (self.view(station), self.height());
        let name = if height == 0 { Name::ZERO } else { self.name() };
        Block { view, height, name }
    }

    fn certificate(&mut self, station: &Station) -> Tally {
        if self.random.one_in(8) {
            return Tally::GENESIS;
        }
        Tally { block: self.block(station), mask: self.quorum(station.settings()) }
    }

    fn strays(&mut self) -> bool {
        self.random.one_in(self.style.stray)
    }

    /// A new-view: of the top of the view before, or of the log, or of any certificate.
    fn new_view(&mut self, station: &Station) -> Statement {
        let view = self.view(station);
        let below = top(station, view - 1).unwrap_or_else(|| logged(station));
        let found = match self.strays() {
            true => self.certificate(station),
            false => Tally { block: below, mask: self.quorum(station.settings()) },
        };
        let earlier = (1..view).contains(&found.block.view);
        let Tally { block, mask } = if earlier { found } else { Tally::GENESIS };
        let made = Made::NewView { certificate_view: block.view };
        Statement { block: Block { view, ..block }, mask, made }
    }

    /// A propose: above the top of its view, or of the current one, or of the log, or above any block.
    fn propose(&mut self, station: &Station) -> Statement {
        let view = self.view(station);
        let below = match self.strays() {
            true => self.block(station),
            false => top(station, view)
                .or_else(|| top(station, station.view()))
                .unwrap_or_else(|| logged(station)),
        };
        self.propose_above(Block { view, ..below }, station.settings())
    }

    fn propose_above(&mut self, below: Block, settings: &Settings) -> Statement {
        if below.height == Settings::HEIGHTS {
            return self.propose_above(Block { height: 0, name: Name::ZERO, ..below }, settings);
        }
        let block = Block { height: below.height + 1, name: self.name(), ..below };
        let made = Made::Propose { parent: below.name };
        Statement { block, mask: self.quorum(settings), made }
    }

    /// A stored statement; there may be none, and then a new one.
    fn stored(&mut self, station: &Station) -> Statement {
        let current: Vec<Statement> = station
            .statements()
            .iter()
            .filter(|old| old.block.view == station.view())
            .copied()
            .collect();
        if !current.is_empty() && !self.random.one_in(5) {
            self.random.pick(&current)
        } else if !station.statements().is_empty() {
            self.random.pick(station.statements())
        } else {
            self.propose(station)
        }
    }

    /// A stored statement in all but one thing: its name, its parent, its view, its certificate.
    fn rival(&mut self, station: &Station) -> Statement {
        let mut rival = self.stored(station);
        let settings = station.settings();
        let (view, height) = (rival.block.view, rival.block.height);
        match (&mut rival.made, self.random.below(3)) {
            (Made::Propose { parent }, 0) if height > 1 => *parent = self.name(),
            (Made::Propose { .. }, 1) => rival.block.view = self.view(station),
            (Made::Propose { .. }, _) => rival.block.name = self.name(),
            (Made::NewView { certificate_view }, 0) if *certificate_view > 1 => {
                *certificate_view -= 1;
            }
            (Made::NewView { .. }, 1) => {
                return self.propose_above(Block { view, ..Block::GENESIS }, settings);
            }
            (Made::NewView { .. }, _) => {
                let mut other = self.new_view(station);
                let allowed = other.certificate().block.view < view;
                other.block.view = if allowed { view } else { other.block.view };
                return other;
            }
        }
        rival
    }

    /// The parent that a stored propose lacks, in some view; or one more above the stored ones.
    fn filler(&mut self, station: &Station) -> Statement {
        let old = self.stored(station);
        let view = self.view(station);
        let Some(name) = old.parent().filter(|parent| !parent.is_zero()) else {
            return self.propose_above(Block { view, ..old.block }, station.settings());
        };
        let height = old.block.height - 1;
        let parent = match height {
            1 => Name::ZERO,
            _ => self.known_name(station, height - 1),
        };
        let (block, made) = (Block { view, height, name }, Made::Propose { parent });
        Statement { block, mask: self.quorum(station.settings()), made }
    }

    /// The name of a stored statement of this height, or a new one.
    fn known_name(&mut self, station: &Station, height: u32) -> Name {
        let of_height = station.statements().iter().filter(|old| old.block.height == height);
        let known: Vec<Name> = of_height.map(|old| old.block.name).collect();
        if known.is_empty() {
            self.name()
        } else {
            self.random.pick(&known)
        }
    }

    fn repeat(&mut self, station: &Station) -> Statement {
        let mut repeat = self.stored(station);
        if repeat.certificate().block != Block::GENESIS && self.random.one_in(2) {
            repeat.mask = self.quorum(station.settings());
        }
        repeat
    }

    /// An offered name: mostly new; else known, zero, or of another length.
    fn offered(&mut self, station: &Station) -> Vec<u8> {
        let mut name = match self.random.below(8) {
            0 => Name::ZERO,
            1 => self.block(station).name,
            2 => self.stored(station).parent().unwrap_or(Name::ZERO),
            _ => self.name(),
        }
        .to_bytes()
        .to_vec();
        if self.random.one_in(24) {
            name.resize(self.random.pick(&[0, 1, 31, 33, 64]), 0);
        }
        name
    }

    /// How many more ticks follow one: often to a moment at which something is due, or just short.
    fn pause(&mut self, station: &Station) -> u32 {
        let settings = station.settings();
        let due = match (station.phase(), self.random.below(6)) {
            (_, 0) => 1,
            (Phase::Waiting { .. }, _) => settings.entry_wait(),
            (_, 1) => settings.patience(0),
            (_, 2) => settings.delay(),
            _ => settings.commit_wait(),
        };
        due.saturating_sub(self.random.below(3) as u32)
    }
}

/// Messages gone wrong.
impl Script {
    /// The message with its bytes damaged in one way.
    fn damaged(&mut self, mut message: Vec<u8>) -> Vec<u8> {
        let place = self.random.place(message.len());
        match self.random.below(8) {
            0 | 1 => message[place] ^= 1 << self.random.below(8),
            2 => message.truncate(place),
            3 => message.truncate(message.len() - 1),
            4 => message.push(self.random.below(256) as u8),
            5 => drop(message.remove(place)),
            6 => message[3] = self.random.below(9) as u8,
            _ => message = self.without_a_field(&message),
        }
        message
    }

    /// The message with one field left out, or sent twice.
    fn without_a_field(&mut self, message: &[u8]) -> Vec<u8> {
        let fields = fields(message);
        let (start, end) = self.random.pick(&fields);
        let rest = if self.random.one_in(2) { end } else { start };
        let first = if rest == end { start } else { end };
        [&message[..first], &message[rest..]].concat()
    }

    /// The message, still readable, with one value at or over an edge of what is allowed.
    fn at_edge(&mut self, mut message: Vec<u8>, settings: &Settings) -> Vec<u8> {
        let fields = fields(&message);
        let (start, end) = self.random.pick(&fields[1..]);
        let stations = settings.stations();
        let value = &mut message[start + 3..end];
        match value.len() {
            1 => value[0] = self.random.pick(&[0, stations - 1, stations, 15, 16, 255]),
            2 => {
                let over = ((1u32 << stations) - 1) as u16;
                let mask = self.random.pick(&[0, 1, over, over >> 1, 1 << stations, u16::MAX]);
                value.copy_from_slice(&mask.to_be_bytes());
            }
            4 => {
                let (views, heights) = (settings.limits().views, Settings::HEIGHTS);
                let edges = [0, 1, 2, views, views + 1, heights, heights + 1, 1 << 16, u32::MAX];
                value.copy_from_slice(&self.random.pick(&edges).to_be_bytes());
            }
            _ => {
                let name = if self.random.one_in(2) { Name::ZERO } else { self.name() };
                value.copy_from_slice(&name.to_bytes());
            }
        }
        message
    }
}

/// The block of a view's greatest-height statement.
fn top(station: &Station, view: u32) -> Option<Block> {
    let blocks = station.statements().iter().map(|old| old.block);
    blocks.filter(|block| block.view == view).max_by_key(|block| block.height)
}

/// The log's last block, in the view of its propose; or genesis.
fn logged(station: &Station) -> Block {
    let name = station.log().last();
    let mut blocks = station.statements().iter().map(|old| old.block);
    blocks.find(|block| Some(block.name) == name).unwrap_or(Block::GENESIS)
}

/// A statement as its view's leader sends it.
fn said(statement: Statement, settings: &Settings) -> Message {
    Message::Statement { statement, author: settings.leader(statement.block.view) }
}

fn bytes(message: &Message) -> Vec<u8> {
    let mut bytes = Vec::new();
    message.write(&mut bytes);
    bytes
}

/// Start and end of each field of a readable message.
fn fields(message: &[u8]) -> Vec<(usize, usize)> {
    let mut fields = Vec::new();
    let mut start = 0;
    while start + 3 <= message.len() {
        let end = start + 3 + usize::from(message[start + 2]);
        fields.push((start, end));
        start = end;
    }
    fields
}
