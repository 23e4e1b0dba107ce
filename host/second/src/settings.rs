//! "Sizes of a group": the limits, which are read from here alone, and a station's settings.

use crate::refusal::Refusal;
use std::ops::RangeInclusive;

/// The limits that groups may differ in. "All stations of one group have the same limits".
#[derive(Clone, Copy, Debug, PartialEq, Eq)]
pub struct Limits {
    /// The last view.
    pub views: u32,
    pub statements: usize,
    pub tallies: usize,
    /// The least length of an out buffer: no call writes more.
    pub out: usize,
}

impl Limits {
    /// 01: "views 1 to 32", "stored statements 128", "out buffer at least 32,768 bytes"; 02, request 5:
    /// "raise tallies to 512".
    pub const SMALL: Limits = Limits { views: 32, statements: 128, tallies: 512, out: 32_768 };
    /// 02, request 14: "raise views to 256 and statements to 512; tallies go to 1,024 and the out
    /// buffer to at least 131,072 bytes".
    pub const LARGE: Limits = Limits { views: 256, statements: 512, tallies: 1_024, out: 131_072 };
}

/// What a station is set up with: its group's limits, n, D and its own number.
#[derive(Clone, Copy, Debug, PartialEq, Eq)]
pub struct Settings {
    limits: Limits,
    stations: u8,
    delay: u32,
    own: u8,
}

impl Settings {
    /// "stations n = 2f+1: odd, 3 to 15".
    pub const STATIONS: RangeInclusive<u64> = 3..=15;
    /// "D, delay bound in ticks".
    pub const DELAYS: RangeInclusive<u64> = 1..=10_000;
    /// "heights 0 to 65,535".
    pub const HEIGHTS: u32 = 65_535;
    /// "clock 0 to 4,000,000,000".
    pub const CLOCK: u32 = 4_000_000_000;
    /// 02, request 5: "let each author open at most 16 by vote messages".
    pub const OPENED: usize = 16;

    /// The settings, or refusal 10.
    pub fn new(limits: Limits, n: u64, d: u64, own: u64) -> Result<Settings, Refusal> {
        let odd = n % 2 == 1;
        if !odd || !Self::STATIONS.contains(&n) || !Self::DELAYS.contains(&d) || own >= n {
            return Err(Refusal::Settings);
        }
        Ok(Settings { limits, stations: n as u8, delay: d as u32, own: own as u8 })
    }

    pub fn limits(&self) -> &Limits {
        &self.limits
    }

    pub fn stations(&self) -> u8 {
        self.stations
    }

    /// D.
    pub fn delay(&self) -> u32 {
        self.delay
    }

    pub fn own(&self) -> u8 {
        self.own
    }

    /// The mask with the own bit alone.
    pub fn own_bit(&self) -> u16 {
        bit(self.own)
    }

    /// "The leader of view v is v mod n."
    pub fn leader(&self, view: u32) -> u8 {
        (view % u32::from(self.stations)) as u8
    }

    /// "A quorum is f+1 voters", with n = 2f+1.
    pub fn quorum(&self) -> u32 {
        u32::from(self.stations) / 2 + 1
    }

    /// Whether a mask holds a quorum.
    pub fn full(&self, mask: u16) -> bool {
        mask.count_ones() >= self.quorum()
    }

    /// "2D+1": the wait of a commit after its vote, and of a leader after its entry.
    pub fn commit_wait(&self) -> u32 {
        2 * self.delay + 1
    }

    /// "D+1": the wait of an entry after the quit.
    pub fn entry_wait(&self) -> u32 {
        self.delay + 1
    }

    /// "(2m+6)D+2": how long a view may take with m proposes voted for.
    pub fn patience(&self, voted: usize) -> u32 {
        (2 * voted as u32 + 6) * self.delay + 2
    }

    /// A view within the limits, "view at least 1".
    pub fn has_view(&self, view: u32) -> bool {
        (1..=self.limits.views).contains(&view)
    }

    pub fn has_station(&self, author: u8) -> bool {
        author < self.stations
    }

    /// "no mask bit at n or above".
    pub fn has_stations(&self, mask: u16) -> bool {
        u32::from(mask) >> self.stations == 0
    }
}

/// "A mask is 16 bits; bit i is station i."
pub fn bit(station: u8) -> u16 {
    1 << station
}
