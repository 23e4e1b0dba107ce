//! The proved station.

use crate::{Answer, Program, shown};
use station::{Effects, Lock, Name, Phase, Refusal, Shown, Size, Station, ffi};

#[derive(Clone, Debug)]
pub struct Proved {
    station: Station,
}

pub(crate) fn answered(answer: Result<Effects<'_>, Refusal>) -> Answer<'_> {
    match answer {
        Ok(effects) => Answer { number: 0, out: effects.bytes() },
        Err(refusal) => Answer { number: refusal.number(), out: &[] },
    }
}

impl Program for Proved {
    const TITLE: &'static str = "proved";

    fn fresh(size: Size, n: u64, d: u64, own: u64) -> Result<Proved, u32> {
        let station = Station::fresh(size, n, d, own).map_err(Refusal::number)?;
        Ok(Proved { station })
    }

    fn step(&mut self, message: &[u8]) -> Answer<'_> {
        answered(self.station.step(message))
    }

    fn tick(&mut self) -> Answer<'_> {
        answered(self.station.tick())
    }

    fn offer(&mut self, name: &[u8]) -> Answer<'_> {
        match name.try_into() {
            Ok(name) => answered(self.station.offer(name)),
            Err(_) => self.offer_misfit(name),
        }
    }

    fn phase(&self) -> Phase {
        self.station.phase()
    }

    fn view(&self) -> u32 {
        self.station.view()
    }

    fn lock(&self) -> Lock {
        self.station.lock()
    }

    fn log(&self) -> Vec<Name> {
        self.station.log().to_vec()
    }

    fn display(&self) -> Vec<Shown> {
        self.station.display()
    }

    fn certified(&self, view: u64, height: u64, name: &[u8]) -> u64 {
        ffi::certified(self.station.store(), view, height, name)
    }

    fn shown(&self) -> Vec<u8> {
        let mut store = self.station.store().to_vec();
        shown::hide(self.station.size(), &mut store);
        store
    }
}

impl Proved {
    pub fn station(&self) -> &Station {
        &self.station
    }

    /// Goes on as another station.
    pub(crate) fn take_up(&mut self, station: Station) {
        self.station = station;
    }

    /// The same station, stopped: each call of it is refused right after the check of its store.
    pub fn stopped(&self) -> Proved {
        let mut store = self.station.store().to_vec();
        store[..4].copy_from_slice(&1_u32.to_be_bytes());
        Proved { station: Station::from_store(&store).expect("well formed, whatever the phase") }
    }

    /// An offer of a name of another length, which `Station` has no type for.
    fn offer_misfit(&mut self, name: &[u8]) -> Answer<'_> {
        let mut store = self.station.store().to_vec();
        let result = ffi::offer(&mut store, name, &mut vec![0; self.station.size().out_length()]);
        assert_eq!(store, self.station.store(), "a refusal of 1 changes nothing");
        answered(station::answer(result).map(|_| Effects::new(&[])))
    }
}
