//! A store's settings, and what they allow.

use crate::bytes::{Name, is_zero, two};
use station::Size;

/// "heights 0 to 65,535".
pub const HEIGHTS: u32 = 65_535;
/// "clock 0 to 4,000,000,000".
pub const CLOCK: u32 = 4_000_000_000;

#[derive(Clone, Copy, Debug)]
pub struct Settings {
    pub n: u32,
    pub d: u32,
    pub own: u8,
    views: u32,
}

impl Settings {
    #[inline]
    pub fn of(size: Size, header: &[u8; 68]) -> Settings {
        Settings {
            n: header[4].into(),
            d: two(header, 5).into(),
            own: header[7],
            views: size.views(),
        }
    }

    #[inline]
    pub fn good(&self) -> bool {
        self.n % 2 == 1
            && (3..=15).contains(&self.n)
            && (1..=10_000).contains(&self.d)
            && u32::from(self.own) < self.n
    }

    #[inline]
    pub fn has_view(&self, view: u32) -> bool {
        view.wrapping_sub(1) < self.views
    }

    #[inline]
    pub fn leader(&self, view: u32) -> u8 {
        (view % self.n) as u8
    }

    pub fn own_bit(&self) -> u16 {
        1 << self.own
    }

    /// "no mask bit at n or above".
    #[inline]
    pub fn has_stations(&self, mask: u16) -> bool {
        u32::from(mask) >> self.n == 0
    }

    /// "A quorum is f+1 voters", with n = 2f+1.
    #[inline]
    pub fn full(&self, mask: u16) -> bool {
        mask.count_ones() > self.n / 2
    }

    #[inline]
    pub fn quorum(&self, mask: u16) -> bool {
        self.has_stations(mask) && self.full(mask)
    }

    /// "Certificate view 0 goes with height 0 and mask 0 only"; a later one with a quorum.
    #[inline]
    pub fn certificate(&self, view: u32, height: u32, mask: u16) -> bool {
        match view {
            0 => height == 0 && mask == 0,
            _ => view <= self.views && self.quorum(mask),
        }
    }
}

/// "height 0 exactly when the name is all zero (genesis)", within the limits.
#[inline]
pub fn block(height: u32, name: &Name) -> bool {
    height <= HEIGHTS && (height == 0) == is_zero(name)
}
