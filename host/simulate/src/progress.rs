//! Request 12, checked as a run goes on where sound leaders' hosts are prompt: in a view with a sound
//! leader no sound station blames, none quits, and each has voted for the p-th propose of the view
//! as the tick to e+(2p+4)D+2 begins, e being the clock at which the first sound station entered.

use crate::group::{Deed, Plan};
use station::{Effect, Message, Phase};
use std::collections::{BTreeMap, HashMap};

/// The views that sound stations have entered, and what they voted for in them.
pub struct Progress {
    plan: Plan,
    /// The clock at which the first sound station entered each view.
    entered: BTreeMap<u32, u32>,
    /// How many proposes of a view each sound station voted for.
    votes: HashMap<(u8, u32), u32>,
}

impl Progress {
    pub fn new(plan: Plan) -> Progress {
        Progress { plan, entered: BTreeMap::from([(1, 0)]), votes: HashMap::new() }
    }

    /// Whether the claim is about this view.
    fn is_led(&self, view: u32) -> bool {
        self.plan.prompt && self.plan.is_sound(self.plan.leader(view))
    }

    /// How many views it was about so far.
    pub fn views(&self) -> u64 {
        self.entered.keys().filter(|&&view| self.is_led(view)).count() as u64
    }

    /// Keeps a vote for a propose.
    pub fn voted(&mut self, station: u8, view: u32) {
        *self.votes.entry((station, view)).or_insert(0) += 1;
    }

    /// Looks at a sound station's deed: nobody blames such a view or quits it.
    pub fn see(&mut self, deed: &Deed) -> Result<(), String> {
        let (station, clock, view) = (deed.station, deed.clock, deed.after.0);
        let enters = view > deed.before.0;
        if enters {
            self.entered.entry(view).or_insert(clock);
        }
        let was_in = enters || deed.before.1 == Phase::InView;
        if self.is_led(view) && was_in && deed.after.1 != Phase::InView {
            return Err(format!("station {station} quits view {view} at {clock}"));
        }
        let blames = |effect: &&Effect| matches!(effect, Effect::ToAll(Message::Blame { view, .. }) if self.is_led(*view));
        match deed.effects.iter().find(blames) {
            Some(effect) => Err(format!("station {station} says {effect:?} at {clock}")),
            None => Ok(()),
        }
    }

    /// Looks that every sound station has voted often enough as the next tick begins.
    pub fn before_tick(&self, clock: u32) -> Result<(), String> {
        let d = self.plan.d;
        for (&view, &entry) in self.entered.iter().filter(|(view, _)| self.is_led(**view)) {
            let Some(left) = (clock + 1 - entry).checked_sub(4 * d + 2) else { continue };
            let bound = left / (2 * d);
            for station in self.plan.sound() {
                let votes = self.votes.get(&(station, view)).copied().unwrap_or(0);
                if votes < bound {
                    return Err(format!(
                        "station {station} has voted for {votes} proposes of view {view}, entered at {entry}, by {clock}"
                    ));
                }
            }
        }
        Ok(())
    }
}
