//! Why one commit is safe, told with the clocks of a run.

use crate::trace::{Mark, Trace, What};
use station::Name;

/// A commit by the station's own timer, and what the others had done by then.
pub struct Story {
    pub station: u8,
    pub view: u32,
    pub height: u32,
    pub name: Name,
    /// The clock of the vote: t.
    pub vote: u32,
    /// The clocks at which each sound station voted for it in that view.
    pub votes: Vec<(u8, u32)>,
    /// The next views that sound stations entered after the vote, with the height of their locks.
    pub locks: Vec<(u8, u32, u32, Name)>,
}

/// The story of the earliest commit of a propose that the station itself had voted for.
pub fn first(trace: &Trace) -> Option<Story> {
    trace.marks.iter().find_map(|mark| of(trace, mark))
}

fn of(trace: &Trace, commit: &Mark) -> Option<Story> {
    let What::Commits { height, name } = commit.what else { return None };
    let station = commit.station;
    let mut votes = trace.of(station).filter_map(|mark| voted(mark, &name));
    let (vote, view) = votes.find(|(clock, _)| clock + 2 * trace.plan.d + 1 == commit.clock)?;
    Some(Story {
        station,
        view,
        height,
        name,
        vote,
        votes: votes_of(trace, view, &name),
        locks: locks_after(trace, view),
    })
}

/// Clock and view of a vote for a propose of this name.
fn voted(mark: &Mark, wanted: &Name) -> Option<(u32, u32)> {
    match mark.what {
        What::Votes { view, name, on_propose: true, .. } if name == *wanted => {
            Some((mark.clock, view))
        }
        _ => None,
    }
}

fn votes_of(trace: &Trace, view: u32, name: &Name) -> Vec<(u8, u32)> {
    let votes = trace.marks.iter().filter_map(|mark| {
        let (clock, of) = voted(mark, name)?;
        (of == view).then_some((mark.station, clock))
    });
    votes.collect()
}

/// What each sound station locked on when it entered the view after this one.
fn locks_after(trace: &Trace, view: u32) -> Vec<(u8, u32, u32, Name)> {
    let locks = trace.marks.iter().filter_map(|mark| match mark.what {
        What::Enters { view: next, lock } if next == view + 1 => {
            Some((mark.station, mark.clock, lock.height, lock.name))
        }
        _ => None,
    });
    locks.collect()
}

impl Story {
    /// The four moments of the commit, each in a sentence or two.
    pub fn moments(&self, trace: &Trace) -> [String; 4] {
        let Story { station, view, vote, height, name, .. } = self;
        let (d, block) = (trace.plan.d, trace.label(*height, name));
        let votes: Vec<String> =
            self.votes.iter().map(|(who, clock)| format!("{who} at {clock}")).collect();
        let locks: Vec<String> = self
            .locks
            .iter()
            .map(|(who, clock, height, name)| {
                format!("{who} at {clock} on {}", trace.label(*height, name))
            })
            .collect();
        let locked = match locks.is_empty() {
            true => String::new(),
            false => format!(" Here they lock: {}.", locks.join(", ")),
        };
        [
            format!(
                "Tick {vote}: station {station} votes for {block} in view {view}, and sends it on to all."
            ),
            format!(
                "D ticks later, at {}: {block} has reached every sound station. None of them had quit view {view} before, for it would have said why, and station {station} would have quit too. So each has voted for {block}: {}.",
                vote + d,
                votes.join(", ")
            ),
            format!(
                "2D ticks later, at {}: those votes have reached everyone. Every sound station holds {} votes or more for {block}: its certificate.",
                vote + 2 * d,
                trace.plan.quorum()
            ),
            format!(
                "2D+1 ticks later, at {}: station {station} is still in view {view}, and commits. Whoever enters a later view does so after this, locks on {block} or on a block above it, and votes for no new-view that ranks lower: so no other block of height {height} is ever committed.{locked}",
                vote + 2 * d + 1
            ),
        ]
    }
}
