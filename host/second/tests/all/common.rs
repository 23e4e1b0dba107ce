//! What the tests share: messages built by hand, byte by byte, and a bench that a station is put on.

use second::{Cause, Limits, Name, Phase, Station};

pub type Bytes = Vec<u8>;

pub const ZERO: [u8; 32] = [0; 32];

pub const ROWS: [Limits; 2] = [Limits::SMALL, Limits::LARGE];

/// A name for a small number; smaller numbers have smaller names.
pub fn name(number: u16) -> [u8; 32] {
    let mut name = [0x5a; 32];
    name[..2].copy_from_slice(&number.to_be_bytes());
    name
}

fn fields(fields: &[(u8, &[u8])]) -> Bytes {
    let mut bytes = Bytes::new();
    for (tag, value) in fields {
        bytes.push(*tag);
        bytes.extend((value.len() as u16).to_be_bytes());
        bytes.extend(*value);
    }
    bytes
}

pub fn new_view(
    view: u32,
    height: u32,
    name: [u8; 32],
    certificate_view: u32,
    mask: u16,
    author: u8,
) -> Bytes {
    fields(&[
        (1, &[1]),
        (2, &view.to_be_bytes()),
        (3, &height.to_be_bytes()),
        (4, &name),
        (6, &certificate_view.to_be_bytes()),
        (7, &mask.to_be_bytes()),
        (8, &[author]),
    ])
}

pub fn propose(
    view: u32,
    height: u32,
    name: [u8; 32],
    parent: [u8; 32],
    mask: u16,
    author: u8,
) -> Bytes {
    fields(&[
        (1, &[2]),
        (2, &view.to_be_bytes()),
        (3, &height.to_be_bytes()),
        (4, &name),
        (5, &parent),
        (7, &mask.to_be_bytes()),
        (8, &[author]),
    ])
}

pub fn vote(view: u32, height: u32, name: [u8; 32], author: u8) -> Bytes {
    fields(&[
        (1, &[3]),
        (2, &view.to_be_bytes()),
        (3, &height.to_be_bytes()),
        (4, &name),
        (8, &[author]),
    ])
}

pub fn blame(view: u32, author: u8) -> Bytes {
    fields(&[(1, &[4]), (2, &view.to_be_bytes()), (8, &[author])])
}

pub fn blame_set(view: u32, mask: u16) -> Bytes {
    fields(&[(1, &[5]), (2, &view.to_be_bytes()), (7, &mask.to_be_bytes())])
}

pub fn status(height: u32, name: [u8; 32], certificate_view: u32, mask: u16) -> Bytes {
    fields(&[
        (1, &[6]),
        (3, &height.to_be_bytes()),
        (4, &name),
        (6, &certificate_view.to_be_bytes()),
        (7, &mask.to_be_bytes()),
    ])
}

/// The outgoing bytes of messages to all.
pub fn to_all(messages: &[Bytes]) -> Bytes {
    messages.iter().flat_map(|message| fields(&[(0x10, message)])).collect()
}

pub fn to_one(station: u8, message: &[u8]) -> Bytes {
    fields(&[(0x11, &[&[station], message].concat())])
}

pub fn committed(height: u32, name: [u8; 32]) -> Bytes {
    fields(&[(0x12, &[&height.to_be_bytes()[..], &name].concat())])
}

/// A call that a test makes.
pub enum Call<'a> {
    Tick,
    Step(&'a [u8]),
    Offer(&'a [u8]),
}

/// A station on the bench. Its calls look that nothing but what 01 says has changed.
pub struct Bench {
    pub station: Station,
}

impl Bench {
    /// A station with 01's limits.
    pub fn new(n: u64, d: u64, own: u64) -> Bench {
        Bench::of(Limits::SMALL, n, d, own)
    }

    pub fn of(limits: Limits, n: u64, d: u64, own: u64) -> Bench {
        Bench { station: Station::fresh(limits, n, d, own).expect("good settings") }
    }

    fn call(&mut self, call: &Call, out: &mut Bytes) -> u32 {
        match call {
            Call::Tick => self.station.tick(out),
            Call::Step(message) => self.station.step(message, out),
            Call::Offer(name) => self.station.offer(name, out),
        }
    }

    fn done(&mut self, call: &Call) -> Bytes {
        let mut out = Bytes::new();
        assert_eq!(self.call(call, &mut out), 0);
        assert!(out.len() <= self.station.settings().limits().out);
        out
    }

    pub fn tick(&mut self) -> Bytes {
        self.done(&Call::Tick)
    }

    pub fn step(&mut self, message: &[u8]) -> Bytes {
        self.done(&Call::Step(message))
    }

    pub fn offer(&mut self, name: [u8; 32]) -> Bytes {
        self.done(&Call::Offer(&name))
    }

    /// Ticks to a clock; nothing may be written on the way.
    pub fn quiet_to(&mut self, clock: u32) {
        while self.station.clock() < clock {
            assert_eq!(self.tick(), [], "at clock {}", self.station.clock());
        }
    }

    /// Ticks to a clock, whatever is written before; gives back what the last tick wrote.
    pub fn run_to(&mut self, clock: u32) -> Bytes {
        let mut last = Bytes::new();
        while self.station.clock() < clock {
            last = self.tick();
        }
        last
    }

    /// A refused call: the number is this, out untouched, and the station as it was; or, of 6, 7
    /// and 8, stopped with the cause and as it was in all else.
    pub fn refused(&mut self, number: u32, call: Call) {
        let before = self.station.clone();
        let mut out = vec![0xa5, 0x5a];
        assert_eq!(self.call(&call, &mut out), number);
        assert_eq!(out, [0xa5, 0x5a]);
        let phase = match number {
            6 => Phase::Stopped(Cause::Full),
            7 => Phase::Stopped(Cause::Split),
            8 => Phase::Stopped(Cause::Clock),
            _ => before.phase(),
        };
        assert_eq!(self.station.phase(), phase);
        assert_eq!(all_but_phase(&self.station), all_but_phase(&before));
    }

    pub fn refused_step(&mut self, number: u32, message: &[u8]) {
        self.refused(number, Call::Step(message));
    }

    pub fn log(&self) -> Vec<[u8; 32]> {
        self.station.log().map(|name| name.to_bytes()).collect()
    }

    /// The mask of a tally; none if there is no such tally.
    pub fn mask(&self, view: u32, height: u32, name: [u8; 32]) -> Option<u16> {
        let mut tallies = self.station.tallies().iter();
        let found = tallies.find(|tally| {
            tally.block.rank() == (view, height) && tally.block.name.to_bytes() == name
        });
        found.map(|tally| tally.mask)
    }

    /// When a tally first reached a quorum.
    pub fn certified(&self, view: u32, height: u32, name: [u8; 32]) -> Option<u32> {
        self.station.certified(view.into(), height.into(), &name).expect("a name of 32 bytes")
    }
}

/// Everything that a station shows, but its phase.
pub fn all_but_phase(station: &Station) -> impl PartialEq + std::fmt::Debug + '_ {
    let clocks = (station.view(), station.clock(), station.entry());
    let views = 0..=station.settings().limits().views;
    let blames: Vec<u16> = views.map(|view| station.blames(view)).collect();
    let log: Vec<Name> = station.log().collect();
    let (settings, lock) = (station.settings(), station.lock());
    let tallies = (station.tallies(), station.openers(), station.reached());
    (settings, clocks, lock, station.statements(), tallies, blames, log)
}
