//! The station over a lent store in plain Rust, with the store and the out buffer that it is lent. What it holds is
//! read by host/station, since the store is the same.

use crate::{Answer, Program, shown};
use station::{Lock, Name, Phase, Shown, Size, Station, ffi};

#[derive(Clone, Debug)]
pub struct Lent {
    size: Size,
    store: Vec<u8>,
    out: Vec<u8>,
}

impl Lent {
    pub fn store(&self) -> &[u8] {
        &self.store
    }

    fn answered(&self, result: u64) -> Answer<'_> {
        Answer { number: (result >> 32) as u32, out: &self.out[..result as u32 as usize] }
    }

    fn station(&self) -> Station {
        Station::from_store(&self.store).expect("a well-formed store")
    }
}

impl Program for Lent {
    const TITLE: &'static str = "lent";

    fn fresh(size: Size, n: u64, d: u64, own: u64) -> Result<Lent, u32> {
        let mut store = vec![0; size.store_length()];
        match lent::fresh(&mut store, n, d, own) {
            0 => Ok(Lent { size, store, out: vec![0; size.out_length()] }),
            refused => Err((refused >> 32) as u32),
        }
    }

    fn step(&mut self, message: &[u8]) -> Answer<'_> {
        let result = lent::step(&mut self.store, message, &mut self.out);
        self.answered(result)
    }

    fn tick(&mut self) -> Answer<'_> {
        let result = lent::tick(&mut self.store, &mut self.out);
        self.answered(result)
    }

    fn offer(&mut self, name: &[u8]) -> Answer<'_> {
        let result = lent::offer(&mut self.store, name, &mut self.out);
        self.answered(result)
    }

    fn phase(&self) -> Phase {
        self.station().phase()
    }

    fn view(&self) -> u32 {
        self.station().view()
    }

    fn lock(&self) -> Lock {
        self.station().lock()
    }

    fn log(&self) -> Vec<Name> {
        self.station().log().to_vec()
    }

    fn display(&self) -> Vec<Shown> {
        self.station().display()
    }

    fn certified(&self, view: u64, height: u64, name: &[u8]) -> u64 {
        ffi::certified(&self.store, view, height, name)
    }

    fn shown(&self) -> Vec<u8> {
        let mut store = self.store.clone();
        shown::hide(self.size, &mut store);
        store
    }
}
