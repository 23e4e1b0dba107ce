//! "The limits belong to the station's settings and are read from one place": both rows of them, and
//! what follows for the buffers. No other file of this crate has their digits.

/// Which limits a group goes by: 01's, or the larger ones of 02. All stations of one group have the
/// same, and a station's store has the length of its size, so that a kept store tells it.
///
/// ```
/// use station::{Size, Station};
///
/// let station = Station::fresh(Size::Large, 3, 2, 0)?;
/// assert_eq!(station.size(), Size::Large);
/// assert_eq!(station.store().len(), Size::Large.store_length());
/// assert_eq!(Station::from_store(station.store())?.size(), Size::Large);
/// # Ok::<(), station::Refusal>(())
/// ```
#[derive(Clone, Copy, Debug, Default, PartialEq, Eq, Hash)]
pub enum Size {
    #[default]
    Small,
    Large,
}

/// Bytes of a store's header, and of one record of each of its tables: docs/STORE.md.
pub const HEADER: usize = 68;
pub const STATEMENT: usize = 80;
pub const TALLY: usize = 47;
pub const BLAME: usize = 2;
pub const NAME: usize = 32;

/// How many tallies an author opens at most by vote messages.
pub const OPENED: u16 = 16;

impl Size {
    pub const ALL: [Size; 2] = [Size::Small, Size::Large];

    const fn row(self) -> (u32, usize, usize, usize) {
        match self {
            Size::Small => (32, 128, 512, 32_768),
            Size::Large => (256, 512, 1_024, 131_072),
        }
    }

    /// The number of the kind of group that has this size, for calls without a store.
    pub const fn kind(self) -> u64 {
        match self {
            Size::Small => 0,
            Size::Large => 4,
        }
    }

    /// The last view.
    pub const fn views(self) -> u32 {
        self.row().0
    }

    /// How many statements there is room for, and how many names in the log.
    pub const fn statements(self) -> usize {
        self.row().1
    }

    /// How many tallies there is room for.
    pub const fn tallies(self) -> usize {
        self.row().2
    }

    /// The least length of an out buffer: no call writes more.
    pub const fn out_length(self) -> usize {
        self.row().3
    }

    /// Where the tallies begin, behind the statements.
    pub const fn tallies_at(self) -> usize {
        HEADER + STATEMENT * self.statements()
    }

    /// Where the blame masks begin, view 1's first.
    pub const fn blames_at(self) -> usize {
        self.tallies_at() + TALLY * self.tallies()
    }

    /// Where the log begins.
    pub const fn log_at(self) -> usize {
        self.blames_at() + BLAME * self.views() as usize
    }

    /// The exact length of a store.
    pub const fn store_length(self) -> usize {
        self.log_at() + NAME * self.statements()
    }

    /// The size of a store of this length, if there is one.
    pub fn of_store(length: usize) -> Option<Size> {
        Size::ALL.into_iter().find(|size| size.store_length() == length)
    }
}

#[cfg(test)]
mod tests {
    use super::*;

    /// The number that `include/station.h` gives a name.
    fn in_header(name: &str) -> usize {
        let header = include_str!("../../../include/station.h");
        let value = header.lines().find_map(|line| line.strip_prefix(&format!("#define {name} ")));
        value.and_then(|value| value.parse().ok()).expect("a length")
    }

    #[test]
    fn lengths_are_those_of_the_header() {
        for (size, large) in [(Size::Small, ""), (Size::Large, "_LARGE")] {
            assert_eq!(size.store_length(), in_header(&format!("STATION_STORE_LENGTH{large}")));
            assert_eq!(size.out_length(), in_header(&format!("STATION_OUT_LENGTH{large}")));
            assert_eq!(size.log_at(), in_header(&format!("STATION_LOG{large}")));
            assert_eq!(Size::of_store(size.store_length()), Some(size));
            assert_eq!(Size::of_store(size.store_length() - 1), None);
        }
    }
}
