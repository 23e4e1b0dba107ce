//! Slips: a block and the proposes from it down to height 1.

use crate::ffi;
use crate::message::{Message, Name};
use crate::refusal::Refusal;
use crate::size::Size;
use std::{error, fmt};

/// Bytes of a field's tag and length, of the name's field, and of an entry's.
const HEAD: usize = 3;
const NAME: usize = HEAD + 32;
const ENTRY: usize = HEAD + 97;

/// A slip that was checked. It shows a chain, it doesn't show a commit: each entry below the top was
/// certified by f+1 stations of the group, and whether any of them has logged the top is not on it.
///
/// ```
/// use station::{BadSlip, Message, Size, Slip, Station};
///
/// let mut station = Station::fresh(Size::Small, 3, 2, 2)?;
/// let block = Message::Propose { view: 1, height: 1, name: [7; 32], parent: [0; 32], mask: 3, author: 1 };
/// station.step(&block.encode())?;
/// for _ in 1..=5 {
///     station.tick()?;
/// }
/// let bytes = station.slip(&[7; 32])?;
/// let slip = Slip::check(Size::Small, 3, &bytes).expect("what a station writes is a slip");
/// assert_eq!((slip.name(), slip.height()), ([7; 32], 1));
/// assert_eq!(slip.entries().collect::<Vec<_>>(), [block]);
/// assert_eq!(Slip::check(Size::Small, 3, &bytes[1..]), Err(BadSlip::Place(0)));
/// # Ok::<(), station::Refusal>(())
/// ```
#[derive(Clone, Copy, Debug, PartialEq, Eq)]
pub struct Slip<'a> {
    bytes: &'a [u8],
}

/// Why some bytes are no slip of a group.
#[derive(Clone, Copy, Debug, PartialEq, Eq)]
pub enum BadSlip {
    /// No group has so many stations.
    Settings,
    /// The first bad place, counted from the top, which is place 0.
    Place(u32),
}

impl BadSlip {
    pub fn refusal(self) -> Refusal {
        match self {
            BadSlip::Settings => Refusal::Settings,
            BadSlip::Place(_) => Refusal::Slip,
        }
    }
}

impl fmt::Display for BadSlip {
    fn fmt(&self, f: &mut fmt::Formatter<'_>) -> fmt::Result {
        match self {
            BadSlip::Settings => self.refusal().fmt(f),
            BadSlip::Place(place) => write!(f, "refusal 15: no slip, bad at place {place}"),
        }
    }
}

impl error::Error for BadSlip {}

impl<'a> Slip<'a> {
    /// The slip in some bytes, whoever put them together, of a group of `n` stations.
    pub fn check(size: Size, n: u64, bytes: &'a [u8]) -> Result<Slip<'a>, BadSlip> {
        let result = ffi::slip_check(size.kind(), n, bytes);
        match (result >> 32) as u32 {
            0 => Ok(Slip { bytes }),
            number if number == Refusal::Slip.number() => Err(BadSlip::Place(result as u32)),
            _ => Err(BadSlip::Settings),
        }
    }

    /// The block that it is of.
    pub fn name(&self) -> Name {
        self.bytes[HEAD..NAME].try_into().expect("32 bytes")
    }

    /// The block's height, which is how many entries there are.
    pub fn height(&self) -> usize {
        self.bytes[NAME..].len() / ENTRY
    }

    /// The proposes, from the top down.
    pub fn entries(&self) -> impl ExactSizeIterator<Item = Message> + 'a {
        let entry = |field: &[u8]| Message::decode(&field[HEAD..]).expect("a checked slip");
        self.bytes[NAME..].chunks_exact(ENTRY).map(entry)
    }
}
