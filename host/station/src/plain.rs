//! The plain engine, which owns its list of inputs and its out buffer.

use crate::effect::Effects;
use crate::ffi;
use crate::message::Name;
use crate::refusal::{Refusal, answer};
use crate::size::Size;
use crate::slot::{Input, SLOT, Slot};
use std::fmt;

/// A station with the small limits that keeps no state but its inputs: each call works its answer out
/// from the whole list, so that it takes longer the more the list holds. It answers as a
/// [`Station`](crate::Station) does, to the byte, and so is a referee to hold one to:
///
/// ```
/// use station::{Plain, Refusal, Size, Station};
///
/// let mut station = Station::fresh(Size::Small, 3, 2, 1)?;
/// let mut plain = Plain::fresh(20, 3, 2, 1)?;
/// for _ in 1..=20 {
///     assert_eq!(plain.tick()?.bytes(), station.tick()?.bytes());
/// }
/// assert_eq!(plain.log(), station.log());
/// // there was room for 20 inputs
/// assert_eq!(plain.tick().err(), Some(Refusal::Journal));
/// # Ok::<(), Refusal>(())
/// ```
#[derive(Clone)]
pub struct Plain {
    /// A head, then the inputs as a journal's slots have them.
    list: Vec<u8>,
    out: Vec<u8>,
}

/// Bytes of a list's head: n (1), D (2), own number (1), records (4), zeros (8).
const HEAD: usize = 16;

/// The calls. Each gives back what it sends and commits, or a refusal. An input joins the list where it
/// is answered 0, 6, 7 or 8; one that would, where there is no room left, is refused with 13.
impl Plain {
    /// The most inputs that a list can have room for.
    pub const MOST_INPUTS: usize = 1 << 20;

    /// A station in view 1 at clock 0, with room for so many inputs. Refusals: 1 for no room or more than
    /// [`Plain::MOST_INPUTS`], 10 as [`Station::fresh`](crate::Station::fresh).
    pub fn fresh(inputs: usize, n: u64, d: u64, own: u64) -> Result<Plain, Refusal> {
        if inputs > Plain::MOST_INPUTS {
            return Err(Refusal::Length);
        }
        let mut plain = Plain::around(vec![0; HEAD + SLOT * inputs]);
        answer(ffi::plain_fresh(&mut plain.list, n, d, own))?;
        Ok(plain)
    }

    /// A message from another station. Refusals: 3, 4, 5, 11, 12, 6, 13.
    pub fn step(&mut self, message: &[u8]) -> Result<Effects<'_>, Refusal> {
        self.take(Input::Message(message))
    }

    /// One tick of the group's common clock. Refusals: 3, 7, 6, 13; 8 is out of a list's reach.
    pub fn tick(&mut self) -> Result<Effects<'_>, Refusal> {
        self.take(Input::Tick)
    }

    /// The name of a block to propose, if this station leads. Refusals: 3, 9, 6, 13.
    pub fn offer(&mut self, name: &Name) -> Result<Effects<'_>, Refusal> {
        self.take(Input::Offer(name))
    }

    /// Any input.
    pub fn take(&mut self, input: Input<'_>) -> Result<Effects<'_>, Refusal> {
        let (list, out) = (&mut self.list, &mut self.out);
        let count = answer(match input {
            Input::Tick => ffi::plain_tick(list, out),
            Input::Offer(name) => ffi::plain_offer(list, name, out),
            Input::Message(message) => ffi::plain_step(list, message, out),
        })?;
        Ok(Effects::new(&self.out[..count]))
    }

    fn around(list: Vec<u8>) -> Plain {
        Plain { list, out: vec![0; Size::Small.out_length()] }
    }
}

/// Keeping a list, and what a host may look at.
impl Plain {
    /// The list's bytes.
    ///
    /// ```
    /// use station::{Input, Plain};
    ///
    /// let mut plain = Plain::fresh(100, 3, 2, 1)?;
    /// plain.tick()?;
    /// let again = Plain::from_list(plain.list())?;
    /// assert!(again.inputs().eq([Input::Tick]));
    /// # Ok::<(), station::Refusal>(())
    /// ```
    pub fn list(&self) -> &[u8] {
        &self.list
    }

    /// The engine of a list, a stopped station's too. Refusals: 1 for a length that no list has, 2 for one
    /// that isn't of its form, or holds an input that was not answered 0, 6, 7 or 8 where it stands.
    pub fn from_list(bytes: &[u8]) -> Result<Plain, Refusal> {
        let plain = Plain::around(bytes.to_vec());
        plain.names()?;
        Ok(plain)
    }

    /// The inputs in the list, in order.
    pub fn inputs(&self) -> impl Iterator<Item = Input<'_>> {
        Slot::inputs(&self.list[HEAD..])
    }

    /// How many inputs there is room for.
    pub fn room(&self) -> usize {
        (self.list.len() - HEAD) / SLOT
    }

    /// The committed names, from height 1 on; a stopped station's too.
    pub fn log(&self) -> Vec<Name> {
        self.names().expect("a list that is one")
    }

    fn names(&self) -> Result<Vec<Name>, Refusal> {
        let mut out = vec![0; Size::Small.out_length()];
        let count = answer(ffi::plain_log(&self.list, &mut out))?;
        Ok(out[..count].as_chunks().0.to_vec())
    }
}

impl fmt::Debug for Plain {
    fn fmt(&self, f: &mut fmt::Formatter<'_>) -> fmt::Result {
        f.debug_struct("Plain")
            .field("inputs", &self.inputs().count())
            .field("room", &self.room())
            .finish_non_exhaustive()
    }
}
