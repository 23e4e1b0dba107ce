//! The plain engine: of a `Program` it has the inputs and the log, and room for so many inputs.

use crate::Answer;
use crate::proved::answered;
use station::{Effects, Name, Plain, Refusal, Size, ffi};

#[derive(Clone, Debug)]
pub struct PlainEngine {
    plain: Plain,
}

impl PlainEngine {
    pub fn fresh(room: usize, n: u64, d: u64, own: u64) -> Result<PlainEngine, u32> {
        let plain = Plain::fresh(room, n, d, own).map_err(Refusal::number)?;
        Ok(PlainEngine { plain })
    }

    pub fn step(&mut self, message: &[u8]) -> Answer<'_> {
        answered(self.plain.step(message))
    }

    pub fn tick(&mut self) -> Answer<'_> {
        answered(self.plain.tick())
    }

    pub fn offer(&mut self, name: &[u8]) -> Answer<'_> {
        match name.try_into() {
            Ok(name) => answered(self.plain.offer(name)),
            Err(_) => self.offer_misfit(name),
        }
    }

    pub fn log(&self) -> Vec<Name> {
        self.plain.log()
    }

    /// An offer of a name of another length, which `Plain` has no type for.
    fn offer_misfit(&mut self, name: &[u8]) -> Answer<'_> {
        let mut list = self.plain.list().to_vec();
        let mut out = vec![0; Size::Small.out_length()];
        let result = ffi::plain_offer(&mut list, name, &mut out);
        assert_eq!(list, self.plain.list(), "a refusal of 1 changes nothing");
        answered(station::answer(result).map(|_| Effects::new(&[])))
    }
}
