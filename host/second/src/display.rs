//! 02's "A number for the wall display".

use crate::station::{Phase, Station};
use crate::wire;
use crate::words::Name;

/// A propose on the display. "A number below zero means overdue, and by how many ticks; zero means
/// due on the tick just given."
#[derive(Clone, Copy, Debug, PartialEq, Eq)]
pub struct Shown {
    pub height: u32,
    pub name: Name,
    pub ticks_left: i64,
}

impl Station {
    /// "For each propose voted for in the view now held and not yet in the log, show the ticks left
    /// until its commit is due, as due clock minus present clock." "The list goes by place in the
    /// store; a waiting or stopped station shows none. It only reads the store."
    pub fn display(&self) -> Vec<Shown> {
        if self.phase != Phase::InView {
            return Vec::new();
        }
        let mut voted = self.voted.clone();
        voted.sort_by_key(|voted| voted.place);
        let mut display = Vec::new();
        for voted in voted {
            let block = self.statements[voted.place].block;
            let logged = self.log.get(block.height as usize - 1);
            if logged.is_none_or(|logged| logged.name != block.name) {
                let due = i64::from(voted.clock) + i64::from(self.settings.commit_wait());
                let ticks_left = due - i64::from(self.clock);
                display.push(Shown { height: block.height, name: block.name, ticks_left });
            }
        }
        display
    }

    /// The display's bytes: of each a field of tag 13 (hex), height (4), name (32), ticks left (8).
    pub fn show(&self, out: &mut Vec<u8>) {
        for Shown { height, name, ticks_left } in self.display() {
            wire::shown(height, name, ticks_left, out);
        }
    }
}
