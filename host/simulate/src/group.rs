//! The schedule: every station is ticked, then letters that are due are delivered, then hosts offer
//! names. A letter that a sound station sends at clock s is delivered at clock s+D at the latest,
//! which is before the tick to s+D+1.

use crate::fault::{Fault, Faulty};
use crate::link;
use crate::trace::Trace;
use crate::watch::{Breach, Watch};
use crate::wild;
use programs::Program;
use second::random::Random;
use station::{Effect, Effects, Message, Name, Phase, Refusal, Size};

/// A message on its way.
#[derive(Clone, Copy, Debug, PartialEq, Eq)]
pub struct Letter {
    pub from: u8,
    pub to: u8,
    pub sent: u32,
    /// The clock at which it is delivered.
    pub due: u32,
    pub message: Message,
}

/// How long a sound station's messages take.
#[derive(Clone, Copy, Debug, PartialEq, Eq)]
pub enum Delays {
    /// D ticks, all of them.
    Longest,
    /// None or D ticks, in any order.
    Bounds,
    /// Anything up to D ticks, in any order.
    Any,
}

/// What is set before a run begins.
#[derive(Clone, Debug)]
pub struct Plan {
    /// The limits of every station.
    pub size: Size,
    pub n: u8,
    pub d: u32,
    /// The fault of each station; none is sound.
    pub faults: Vec<Option<Fault>>,
    pub delays: Delays,
    /// How many times D a late leader waits.
    pub lateness: u32,
    /// How many names a leader's host has to offer in a view.
    pub names: u32,
    /// Whether a sound leader's host offers a name after every call, until one is refused.
    pub prompt: bool,
    pub seed: u64,
}

impl Plan {
    pub fn is_sound(&self, station: u8) -> bool {
        self.faults[usize::from(station)].is_none()
    }

    pub fn sound(&self) -> Vec<u8> {
        (0..self.n).filter(|&station| self.is_sound(station)).collect()
    }

    /// The stations with this fault.
    pub fn with(&self, fault: Fault) -> Vec<u8> {
        (0..self.n).filter(|&station| self.faults[usize::from(station)] == Some(fault)).collect()
    }

    /// f+1.
    pub fn quorum(&self) -> u32 {
        u32::from(self.n) / 2 + 1
    }

    pub fn leader(&self, view: u32) -> u8 {
        (view % u32::from(self.n)) as u8
    }
}

/// What a station is handed.
#[derive(Clone, Copy, Debug)]
pub enum Call<'a> {
    Tick,
    Given(&'a Letter),
    Offered(&'a Name),
}

/// A call with all that came of it.
#[derive(Debug)]
pub struct Deed<'a> {
    pub station: u8,
    pub clock: u32,
    pub call: Call<'a>,
    pub number: u32,
    pub effects: Vec<Effect>,
    /// View and phase before and after.
    pub before: (u32, Phase),
    pub after: (u32, Phase),
}

impl Deed<'_> {
    /// The messages that it sends to all.
    pub fn to_all(&self) -> impl Iterator<Item = &Message> {
        self.effects.iter().filter_map(|effect| match effect {
            Effect::ToAll(message) => Some(message),
            _ => None,
        })
    }
}

/// n stations, and the letters between them.
pub struct Group<P> {
    pub plan: Plan,
    stations: Vec<P>,
    clock: u32,
    post: Vec<Letter>,
    random: Random,
    names: u32,
    /// The view in which each station last proposed, and how often.
    proposed: Vec<(u32, u32)>,
    /// How many relay envelopes the letters travelled in, if they do.
    pub envelopes: Option<u64>,
    pub watch: Watch,
    pub trace: Trace,
}

impl<P: Program> Group<P> {
    /// # Panics
    /// If the plan's n and D are no settings of a station.
    pub fn new(plan: Plan) -> Group<P> {
        let fresh = |own| P::fresh(plan.size, plan.n.into(), plan.d.into(), own);
        let stations = (0..plan.n.into()).map(|own| fresh(own).expect("good settings")).collect();
        Group {
            stations,
            clock: 0,
            post: Vec::new(),
            random: Random::new(plan.seed),
            names: 0,
            proposed: vec![(0, 0); plan.n.into()],
            envelopes: None,
            watch: Watch::new(plan.clone()),
            trace: Trace::new(plan.clone()),
            plan,
        }
    }

    /// The same group, whose letters travel in relay envelopes.
    pub fn in_envelopes(self) -> Group<P> {
        Group { envelopes: Some(0), ..self }
    }

    /// Runs to a clock; or until demand 3 is broken, or a station has no room.
    pub fn run_to(&mut self, clock: u32) -> Result<(), Breach> {
        while self.clock < clock {
            self.tick()?;
        }
        Ok(())
    }

    /// One common tick and all that happens before the next.
    fn tick(&mut self) -> Result<(), Breach> {
        self.watch.before_tick(self.clock, &self.stations)?;
        self.clock += 1;
        self.trace.last = self.clock;
        for station in 0..self.plan.n {
            self.call(station, Call::Tick)?;
        }
        self.watch.after_tick(self.clock, &self.stations)?;
        self.deliver()?;
        for station in 0..self.plan.n {
            self.offer(station)?;
        }
        self.deliver()?;
        self.plant()?;
        self.post_rude()?;
        self.post_wild()?;
        self.deliver()
    }

    /// Delivers what is due, and what becomes due by that.
    fn deliver(&mut self) -> Result<(), Breach> {
        loop {
            let due = self.post.iter().filter(|letter| letter.due <= self.clock).count();
            if due == 0 {
                return Ok(());
            }
            let chosen = match self.plan.delays {
                Delays::Longest => 0,
                Delays::Bounds | Delays::Any => self.random.place(due),
            };
            let is_due = |place: &usize| self.post[*place].due <= self.clock;
            let place = (0..self.post.len()).filter(is_due).nth(chosen);
            let letter = self.post.remove(place.expect("there are as many"));
            self.call(letter.to, Call::Given(&letter))?;
        }
    }

    /// A leader's host offers names while it has some; a faulty one's has one in a view.
    fn offer(&mut self, station: u8) -> Result<(), Breach> {
        let view = self.stations[usize::from(station)].view();
        let names = if self.plan.is_sound(station) { self.plan.names } else { 1 };
        let (last, count) = self.proposed[usize::from(station)];
        if self.plan.leader(view) == station && (last != view || count < names) {
            let name = self.spare_name();
            self.call(station, Call::Offered(&name))?;
        }
        Ok(())
    }

    /// A call, and the offers that a prompt host makes after it.
    fn call(&mut self, station: u8, call: Call) -> Result<(), Breach> {
        self.act(station, call)?;
        let leads = |group: &Self| {
            group.plan.leader(group.stations[usize::from(station)].view()) == station
        };
        if self.plan.prompt && self.plan.is_sound(station) && leads(self) {
            while {
                let name = self.spare_name();
                self.act(station, Call::Offered(&name))? == 0
            } {}
        }
        Ok(())
    }

    /// A call, with all that the others see of it; its number.
    fn act(&mut self, station: u8, call: Call) -> Result<u32, Breach> {
        let program = &mut self.stations[usize::from(station)];
        let before = (program.view(), program.phase());
        let answer = match call {
            Call::Tick => program.tick(),
            Call::Given(letter) => program.step(&letter.message.encode()),
            Call::Offered(name) => program.offer(name),
        };
        let (number, effects) = (answer.number, Effects::new(answer.out).collect());
        let after = (program.view(), program.phase());
        let deed = Deed { station, clock: self.clock, call, number, effects, before, after };
        if matches!(call, Call::Offered(_)) && number == 0 {
            let proposed = &mut self.proposed[usize::from(station)];
            let count = if proposed.0 == after.0 { proposed.1 } else { 0 };
            *proposed = (after.0, count + 1);
        }
        self.watch.see(&deed, &self.stations[usize::from(station)])?;
        let letters = self.letters(&deed);
        self.trace.see(&deed, &letters, self.stations[usize::from(station)].lock());
        self.send(letters)?;
        Ok(number)
    }

    /// The letters that a deed brings about.
    fn letters(&mut self, deed: &Deed) -> Vec<Letter> {
        let (own, clock) = (deed.station, self.clock);
        if let Some(fault) = self.plan.faults[usize::from(own)] {
            let spare = self.spare_name();
            let proposes = matches!(deed.call, Call::Offered(_));
            let faulty = Faulty { fault, own, clock, plan: &self.plan, proposes, spare };
            return faulty.letters(&deed.effects);
        }
        let mut letters = Vec::new();
        for effect in &deed.effects {
            let (to, message) = match *effect {
                Effect::ToAll(message) => ((0..self.plan.n).collect(), message),
                Effect::ToOne { station, message } => (vec![station], message),
                Effect::Committed { .. } => continue,
            };
            for to in to.into_iter().filter(|&to| to != own) {
                letters.push(Letter {
                    from: own,
                    to,
                    sent: clock,
                    due: clock + self.delay(),
                    message,
                });
            }
        }
        letters
    }

    fn delay(&mut self) -> u32 {
        match self.plan.delays {
            Delays::Longest => self.plan.d,
            Delays::Bounds => self.plan.d * self.random.below(2) as u32,
            Delays::Any => self.random.below(u64::from(self.plan.d) + 1) as u32,
        }
    }

    /// Puts letters in the post. What faulty stations send must be within the premises.
    fn send(&mut self, letters: Vec<Letter>) -> Result<(), Breach> {
        for letter in &letters {
            self.watch.sent(letter)?;
        }
        let Some(count) = &mut self.envelopes else {
            self.post.extend(letters);
            return Ok(());
        };
        let (letters, envelopes) = link::carried(letters, self.plan.n);
        *count += envelopes;
        self.post.extend(letters);
        Ok(())
    }

    /// Planting leaders send a child of each of two rival blocks, once it has the votes.
    fn plant(&mut self) -> Result<(), Breach> {
        for own in self.plan.with(Fault::Planting) {
            for (block, mask) in self.watch.plantable(own) {
                let (fault, clock, spare) = (Fault::Planting, self.clock, self.spare_name());
                let plan = &self.plan;
                let faulty = Faulty { fault, own, clock, plan, proposes: true, spare };
                let letters = faulty.child(block, mask);
                self.trace.sent(&letters);
                self.send(letters)?;
            }
        }
        Ok(())
    }

    /// Rude stations vote for names of their own.
    fn post_rude(&mut self) -> Result<(), Breach> {
        for own in self.plan.with(Fault::Rude).repeat(3) {
            let (fault, clock, spare) = (Fault::Rude, self.clock, self.spare_name());
            let view = self.stations[usize::from(own)].view();
            let faulty = Faulty { fault, own, clock, plan: &self.plan, proposes: false, spare };
            let letters = faulty.invented(view);
            self.trace.sent(&letters);
            self.send(letters)?;
        }
        Ok(())
    }

    /// Wild stations send something, some times.
    fn post_wild(&mut self) -> Result<(), Breach> {
        let view = self.stations.iter().map(Program::view).max().unwrap_or(1);
        let wild = self.plan.with(Fault::Wild);
        for own in wild.repeat(self.random.place(4)) {
            let (clock, spare) = (self.clock, self.spare_name());
            let (plan, watch, random) = (&self.plan, &self.watch, &mut self.random);
            let letters = wild::Wild { own, clock, view, plan, watch, random, spare }.letters();
            self.trace.sent(&letters);
            self.send(letters)?;
            self.deliver()?;
        }
        Ok(())
    }

    /// A name that nobody has used.
    fn spare_name(&mut self) -> Name {
        self.names += 1;
        let mut name = [0x5a; 32];
        name[..4].copy_from_slice(&self.names.to_be_bytes());
        name
    }
}

/// Whether a sound station may answer so: an offer may come at the wrong time, a faulty station's message is
/// too far ahead exactly when it is more than one view ahead of the receiver's, and its votes may open no more
/// tallies.
pub fn is_expected(plan: &Plan, deed: &Deed) -> bool {
    let refused = |refusal: Refusal| deed.number == refusal.number();
    match deed.call {
        Call::Tick => refused_nothing(deed),
        Call::Offered(_) => refused_nothing(deed) || refused(Refusal::NotTaken),
        Call::Given(letter) => {
            let is_ahead = letter.message.view().is_some_and(|view| view > deed.before.0 + 1);
            match is_ahead {
                true => !plan.is_sound(letter.from) && refused(Refusal::Ahead),
                false => refused_nothing(deed) || is_used_up(deed) && !plan.is_sound(letter.from),
            }
        }
    }
}

/// Whether a vote was refused since its author has opened as many tallies as one may.
pub fn is_used_up(deed: &Deed) -> bool {
    let is_vote = matches!(deed.call, Call::Given(Letter { message: Message::Vote { .. }, .. }));
    is_vote && deed.number == Refusal::UsedUp.number()
}

fn refused_nothing(deed: &Deed) -> bool {
    deed.number == 0
}
