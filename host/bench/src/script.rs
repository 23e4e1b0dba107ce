//! A long script for one station: four views, in each a new-view and blocks, every statement handed
//! on and voted for by every other station, and a vote for a made-up name with each. It ends with
//! every record of both tables in use.

use programs::{Answer, Program};
use second::Station;
use station::{GENESIS, Message, Name, Size};

pub const VIEWS: u32 = 4;

/// How many blocks there are in a view: with the new-views as many as there is room for.
pub fn blocks(size: Size) -> u32 {
    size.statements() as u32 / VIEWS - 1
}

/// What sort of input it is.
#[derive(Clone, Copy, Debug, PartialEq, Eq)]
pub enum Kind {
    Tick,
    Statement,
    Repeat,
    Vote,
    Other,
}

impl Kind {
    pub const ALL: [(Kind, &'static str); 5] = [
        (Kind::Tick, "tick"),
        (Kind::Statement, "new statement, or offer"),
        (Kind::Repeat, "statement held already"),
        (Kind::Vote, "vote"),
        (Kind::Other, "blame, status"),
    ];
}

#[derive(Clone, Debug)]
pub enum Call {
    Tick,
    Step(Vec<u8>),
    Offer(Name),
}

impl Call {
    /// Hands the input to a program.
    pub fn give<'a, P: Program>(&self, program: &'a mut P) -> Answer<'a> {
        match self {
            Call::Tick => program.tick(),
            Call::Step(message) => program.step(message),
            Call::Offer(name) => program.offer(name),
        }
    }
}

/// An input, and how many statements the station held before it.
#[derive(Clone, Debug)]
pub struct Input {
    pub kind: Kind,
    pub call: Call,
    pub statements: usize,
}

/// The script for a station of a group.
pub fn script(size: Size, n: u8, d: u32, own: u8) -> Vec<Input> {
    let limits = programs::limits(size);
    let station = Station::fresh(limits, n.into(), d.into(), own.into()).expect("good settings");
    let top = Top { view: 0, height: 0, name: GENESIS };
    let mut writer = Writer { size, n, d, own, station, top, names: 0, inputs: Vec::new() };
    for _ in 0..VIEWS {
        writer.view();
    }
    let (statements, tallies) = (writer.station.statements().len(), writer.station.tallies().len());
    assert_eq!((statements, tallies), (size.statements(), size.tallies()));
    assert_eq!(writer.station.log().len(), (VIEWS * blocks(size)) as usize);
    writer.inputs
}

/// The last block that everyone voted for.
#[derive(Clone, Copy)]
struct Top {
    view: u32,
    height: u32,
    name: Name,
}

/// A script under way, and the station that it is for.
struct Writer {
    size: Size,
    n: u8,
    d: u32,
    own: u8,
    station: Station,
    top: Top,
    names: u32,
    inputs: Vec<Input>,
}

impl Writer {
    fn view(&mut self) {
        self.new_view();
        for _ in 0..blocks(self.size) {
            self.block();
        }
        self.ticks(2 * self.d + 1);
        for author in self.others().into_iter().take(usize::from(self.n / 2 + 1)) {
            self.step(Kind::Other, Message::Blame { view: self.station.view(), author });
        }
        if self.station.view() < VIEWS {
            self.ticks(self.d + 1);
            self.statuses();
        }
    }

    /// The view's new-view, of its leader or of the station itself.
    fn new_view(&mut self) {
        let (view, Top { height, name, .. }) = (self.station.view(), self.top);
        let (certificate_view, author) = (self.top.view, (view % u32::from(self.n)) as u8);
        let mask = if certificate_view == 0 { 0 } else { self.everyone() };
        let made = Message::NewView { view, height, name, certificate_view, mask, author };
        if author == self.own {
            self.ticks(2 * self.d + 1);
        } else {
            self.step(Kind::Statement, made);
        }
        self.spread(made, Top { view, height, name });
    }

    /// One block above the last.
    fn block(&mut self) {
        let Top { view, height, name: parent } = self.top;
        let (height, name) = (height + 1, self.name());
        let (mask, author) = (self.everyone(), (view % u32::from(self.n)) as u8);
        let propose = Message::Propose { view, height, name, parent, mask, author };
        if author == self.own {
            self.give(Kind::Statement, Call::Offer(name));
        } else {
            self.step(Kind::Statement, propose);
        }
        self.spread(propose, Top { view, height, name });
        self.ticks(2 * self.d);
    }

    /// Every other station hands the statement on and votes for it; then come statuses of made-up names, so
    /// many that statements and tallies are all in use together.
    fn spread(&mut self, statement: Message, top: Top) {
        self.top = top;
        let Top { view, height, name } = top;
        for author in self.others() {
            if statement.author() != Some(author) {
                self.step(Kind::Repeat, statement);
            }
            self.step(Kind::Vote, Message::Vote { view, height, name, author });
        }
        for _ in 1..self.size.tallies() / self.size.statements() {
            let (name, mask) = (self.name(), self.everyone());
            self.step(
                Kind::Other,
                Message::Status { height: 1, name, certificate_view: view, mask },
            );
        }
    }

    /// What the others send to the leader of the view, if that is this station.
    fn statuses(&mut self) {
        let Top { view: certificate_view, height, name } = self.top;
        if self.station.is_leader() {
            for _ in self.others() {
                let mask = self.everyone();
                self.step(Kind::Other, Message::Status { height, name, certificate_view, mask });
            }
        }
    }

    fn others(&self) -> Vec<u8> {
        (0..self.n).filter(|&author| author != self.own).collect()
    }

    fn everyone(&self) -> u16 {
        ((1u32 << self.n) - 1) as u16
    }

    fn name(&mut self) -> Name {
        self.names += 1;
        // As the names of blocks do, these differ from their first bytes on.
        let mixed = self.names.wrapping_mul(0x9e37_79b9).to_be_bytes();
        std::array::from_fn(|place| mixed[place % 4] ^ place as u8)
    }

    fn ticks(&mut self, count: u32) {
        for _ in 0..count {
            self.give(Kind::Tick, Call::Tick);
        }
    }

    fn step(&mut self, kind: Kind, message: Message) {
        self.give(kind, Call::Step(message.encode()));
    }

    fn give(&mut self, kind: Kind, call: Call) {
        let statements = self.station.statements().len();
        let mut out = Vec::new();
        let number = match &call {
            Call::Tick => self.station.tick(&mut out),
            Call::Step(message) => self.station.step(message, &mut out),
            Call::Offer(name) => self.station.offer(name, &mut out),
        };
        assert_eq!(number, 0, "{kind:?}");
        self.inputs.push(Input { kind, call, statements });
    }
}

#[cfg(test)]
mod tests {
    use super::*;

    /// The script fills both tables and the log, as `script` itself looks; all programs take it.
    #[test]
    fn all_programs_take_it() {
        use programs::{Lent, Proved, Second};
        for (size, n, own) in [(Size::Small, 3, 1), (Size::Small, 15, 4), (Size::Large, 3, 1)] {
            let mut proved = Proved::fresh(size, n.into(), 2, own.into()).unwrap();
            let mut lent = Lent::fresh(size, n.into(), 2, own.into()).unwrap();
            let mut second = Second::fresh(size, n.into(), 2, own.into()).unwrap();
            for Input { call, .. } in script(size, n, 2, own) {
                let answer = call.give(&mut proved);
                assert_eq!(answer, call.give(&mut second));
                assert_eq!(answer, call.give(&mut lent));
            }
            assert_eq!(proved.shown(), second.shown());
            assert_eq!(proved.station().store(), lent.store());
        }
    }
}
