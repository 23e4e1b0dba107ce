//! The second program.

use crate::{Answer, Program, shown};
use second::{Limits, Station};
use station::{Cause, Lock, Name, Phase, Shown, Size};

#[derive(Clone, Debug)]
pub struct Second {
    size: Size,
    station: Station,
    /// What the last call wrote.
    out: Vec<u8>,
}

impl Second {
    pub fn station(&self) -> &Station {
        &self.station
    }

    pub(crate) fn station_mut(&mut self) -> &mut Station {
        &mut self.station
    }
}

impl Program for Second {
    const TITLE: &'static str = "second";

    fn fresh(size: Size, n: u64, d: u64, own: u64) -> Result<Second, u32> {
        let limits = limits(size);
        let out = Vec::with_capacity(limits.out);
        Ok(Second { size, station: Station::fresh(limits, n, d, own)?, out })
    }

    fn step(&mut self, message: &[u8]) -> Answer<'_> {
        self.out.clear();
        let number = self.station.step(message, &mut self.out);
        Answer { number, out: &self.out }
    }

    fn tick(&mut self) -> Answer<'_> {
        self.out.clear();
        let number = self.station.tick(&mut self.out);
        Answer { number, out: &self.out }
    }

    fn offer(&mut self, name: &[u8]) -> Answer<'_> {
        self.out.clear();
        let number = self.station.offer(name, &mut self.out);
        Answer { number, out: &self.out }
    }

    fn phase(&self) -> Phase {
        phase(self.station.phase())
    }

    fn view(&self) -> u32 {
        self.station.view()
    }

    fn lock(&self) -> Lock {
        let block = self.station.lock();
        Lock { view: block.view, height: block.height, name: block.name.to_bytes() }
    }

    fn log(&self) -> Vec<Name> {
        self.station.log().map(|name| name.to_bytes()).collect()
    }

    fn display(&self) -> Vec<Shown> {
        let display = self.station.display().into_iter();
        display
            .map(|shown| Shown {
                height: shown.height,
                name: shown.name.to_bytes(),
                ticks_left: shown.ticks_left,
            })
            .collect()
    }

    fn certified(&self, view: u64, height: u64, name: &[u8]) -> u64 {
        match self.station.certified(view, height, name) {
            Ok(clock) => clock.map_or(0, |clock| u64::from(clock) + 1),
            Err(number) => u64::from(number) << 32,
        }
    }

    fn shown(&self) -> Vec<u8> {
        shown::store_of(self.size, &self.station)
    }
}

/// The second program's limits of a size.
pub fn limits(size: Size) -> Limits {
    match size {
        Size::Small => Limits::SMALL,
        Size::Large => Limits::LARGE,
    }
}

pub(crate) fn phase(phase: second::Phase) -> Phase {
    match phase {
        second::Phase::InView => Phase::InView,
        second::Phase::Waiting { quit } => Phase::Waiting { quit },
        second::Phase::Stopped(cause) => Phase::Stopped(match cause {
            second::Cause::Full => Cause::Full,
            second::Cause::Split => Cause::Split,
            second::Cause::Clock => Cause::Clock,
        }),
    }
}
