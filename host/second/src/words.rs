//! "Words used": names, blocks, tallies and statements, and when two statements conflict.

use std::fmt;

/// A block's name of 32 bytes, held as four big-endian words: their order is the byte order.
#[derive(Clone, Copy, PartialEq, Eq, PartialOrd, Ord, Hash)]
pub struct Name([u64; 4]);

impl Name {
    pub const BYTES: usize = 32;
    /// The name of genesis.
    pub const ZERO: Name = Name([0; 4]);

    pub fn from_bytes(bytes: [u8; Self::BYTES]) -> Name {
        let word = |i: usize| {
            let mut eight = [0; 8];
            eight.copy_from_slice(&bytes[8 * i..8 * i + 8]);
            u64::from_be_bytes(eight)
        };
        Name([word(0), word(1), word(2), word(3)])
    }

    pub fn to_bytes(self) -> [u8; Self::BYTES] {
        let mut bytes = [0; Self::BYTES];
        for (eight, word) in bytes.chunks_exact_mut(8).zip(self.0) {
            eight.copy_from_slice(&word.to_be_bytes());
        }
        bytes
    }

    pub fn is_zero(&self) -> bool {
        *self == Self::ZERO
    }
}

impl fmt::Debug for Name {
    fn fmt(&self, f: &mut fmt::Formatter<'_>) -> fmt::Result {
        let [a, b, c, d] = self.0;
        write!(f, "{a:016x}{b:016x}{c:016x}{d:016x}")
    }
}

/// (view, height, name): what votes are for.
#[derive(Clone, Copy, Debug, PartialEq, Eq)]
pub struct Block {
    pub view: u32,
    pub height: u32,
    pub name: Name,
}

impl Block {
    /// "Genesis is certified in view 0 and has no tally there."
    pub const GENESIS: Block = Block { view: 0, height: 0, name: Name::ZERO };

    /// "Rank is view, then height."
    pub fn rank(&self) -> (u32, u32) {
        (self.view, self.height)
    }

    /// Whether this is the higher of two: "'Highest' breaks ties by the smaller name in byte order."
    pub fn is_higher(&self, other: &Block) -> bool {
        let (rank, others) = (self.rank(), other.rank());
        rank > others || rank == others && self.name < other.name
    }
}

/// "A tally is (view, height, name) with a mask." A certificate is a tally at f+1 bits, or
/// genesis in view 0 with mask 0.
#[derive(Clone, Copy, Debug, PartialEq, Eq)]
pub struct Tally {
    pub block: Block,
    pub mask: u16,
}

impl Tally {
    /// The certificate of genesis in view 0.
    pub const GENESIS: Tally = Tally { block: Block::GENESIS, mask: 0 };

    /// "Adding a voter to a tally gives back the grown tally": masks are joined, never summed.
    #[must_use]
    pub fn joined(self, mask: u16) -> Tally {
        Tally { mask: self.mask | mask, ..self }
    }
}

/// What a statement is, with what only its kind has.
#[derive(Clone, Copy, Debug, PartialEq, Eq)]
pub enum Made {
    NewView { certificate_view: u32 },
    Propose { parent: Name },
}

/// "A statement is a new-view or propose." Its author is the leader of its view, so none is kept.
#[derive(Clone, Copy, Debug, PartialEq, Eq)]
pub struct Statement {
    /// Its own block in its view.
    pub block: Block,
    /// The certificate's mask, as received.
    pub mask: u16,
    pub made: Made,
}

impl Statement {
    pub fn is_new_view(&self) -> bool {
        matches!(self.made, Made::NewView { .. })
    }

    /// The parent's name, of a propose.
    pub fn parent(&self) -> Option<Name> {
        match self.made {
            Made::NewView { .. } => None,
            Made::Propose { parent } => Some(parent),
        }
    }

    /// The certificate that it has with it: a propose's mask "certifies (view, height-1, parent)".
    pub fn certificate(&self) -> Tally {
        let block = match self.made {
            Made::NewView { certificate_view } => Block { view: certificate_view, ..self.block },
            Made::Propose { parent } => {
                Block { height: self.block.height - 1, name: parent, ..self.block }
            }
        };
        Tally { block, mask: self.mask }
    }

    /// "Two are the same when all but the mask agree."
    pub fn is_same(&self, other: &Statement) -> bool {
        self.block == other.block && self.made == other.made
    }

    /// "Two different statements of one view conflict when: both are new-views; both are proposes
    /// of one height with different names; or one is a new-view and the other a propose of no
    /// greater height." 02, request 4, adds a fourth case.
    pub fn conflicts(&self, other: &Statement) -> bool {
        let (one, two) = (&self.block, &other.block);
        if one.view != two.view {
            return false;
        }
        let listed = match (self.is_new_view(), other.is_new_view()) {
            (true, true) => !self.is_same(other),
            (false, false) => one.height == two.height && one.name != two.name,
            (true, false) => two.height <= one.height,
            (false, true) => one.height <= two.height,
        };
        listed || self.is_wrong_child(other) || other.is_wrong_child(self)
    }

    /// Of two "at adjacent heights, the upper a propose whose parent is not the lower's name".
    fn is_wrong_child(&self, lower: &Statement) -> bool {
        let adjacent = self.block.height == lower.block.height + 1;
        adjacent && self.parent().is_some_and(|parent| parent != lower.block.name)
    }
}
