//! Groups keep demand 3, with both programs alike; and wrong stations are found.

use programs::{Answer, Program, Proved, Second};
use simulate::watch::Breach;
use simulate::{Delays, Fault, Group, Plan};
use station::{Lock, Name, Phase, Shown, Size};

fn plan(n: u8, d: u32, faulty: &[Fault], delays: Delays, seed: u64) -> Plan {
    let mut faults = vec![None; n.into()];
    for (station, fault) in (1..).zip(faulty) {
        faults[station] = Some(*fault);
    }
    Plan { size: Size::Small, n, d, faults, delays, lateness: 3, names: 3, prompt: false, seed }
}

/// Every kind of faulty leader, with delays at their bounds: logs agree, and blocks are committed.
#[test]
fn groups_agree_with_any_leader() {
    for fault in Fault::ALL {
        for (seed, size) in (0..6).zip(Size::ALL.into_iter().cycle()) {
            let plan = Plan { size, ..plan(3, 2, &[fault], Delays::Bounds, seed) };
            let mut group = Group::<Proved>::new(plan);
            assert_eq!(group.run_to(100), Ok(()), "{fault}, seed {seed}");
            assert!(group.watch.log().len() >= 2, "{fault}, seed {seed}");
        }
    }
}

/// Messages far ahead, which wild stations send, are refused; sound stations' never are, which every run
/// looks for.
#[test]
fn only_faulty_messages_are_too_far_ahead() {
    let runs = (0..6).map(|seed| {
        let mut group = Group::<Proved>::new(plan(3, 2, &[Fault::Wild], Delays::Bounds, seed));
        assert_eq!(group.run_to(100), Ok(()), "seed {seed}");
        group.watch.ahead
    });
    assert!(runs.sum::<u64>() > 0);
}

/// Two rude neighbours of five vote for invented names without end, far more than a store has tallies: from the
/// seventeenth on each is refused with 12, and the group gets as far as with silent ones.
#[test]
fn rude_neighbours_stop_nobody() {
    let rude = plan(5, 2, &[Fault::Rude, Fault::Rude], Delays::Longest, 1);
    let (size, ticks) = (rude.size, 200);
    let mut group = Group::<Proved>::new(rude);
    assert_eq!(group.run_to(ticks), Ok(()));
    assert!(3 * 2 * ticks as usize > size.tallies());
    assert!(group.watch.used_up > 3 * (3 * 2 * u64::from(ticks) - 3 * 2 * 16 - 60));
    let silent = plan(5, 2, &[Fault::Silent, Fault::Silent], Delays::Longest, 1);
    let mut calm = Group::<Proved>::new(silent);
    assert_eq!(calm.run_to(ticks), Ok(()));
    assert!(group.watch.log().len() >= calm.watch.log().len());
}

/// The late leader's block is committed by one station alone in view 1, and by all after that.
#[test]
fn a_block_that_one_station_committed_stays() {
    let mut group = Group::<Proved>::new(plan(5, 2, &[Fault::Late], Delays::Longest, 1));
    assert_eq!(group.run_to(15), Ok(()));
    assert_eq!((group.watch.log().len(), group.watch.commits), (1, 1));
    let first = group.watch.log()[0];
    assert_eq!(group.run_to(60), Ok(()));
    assert_eq!(group.watch.log()[0], first);
    assert!(group.watch.commits >= 8);
}

/// A child with the wrong parent makes a station quit where the other block alone isn't known yet.
#[test]
fn a_wrong_parents_child_is_seen_before_the_other_block() {
    let quits = |fault, clock| {
        let mut group = Group::<Proved>::new(plan(3, 2, &[fault], Delays::Longest, 1));
        assert_eq!(group.run_to(clock), Ok(()));
        group.watch.quits
    };
    // The new-view of clock 5 has its votes at 9, and both blocks are proposed; each station sends
    // its own on, and the other has it at 11.
    assert_eq!([9, 10, 11].map(|clock| quits(Fault::Splitting, clock)), [0, 0, 2]);
    assert_eq!([8, 9].map(|clock| quits(Fault::Planting, clock)), [0, 2]);
}

/// A group with the large limits goes on where one with the small limits is full.
#[test]
fn large_groups_last_longer() {
    let small = Plan { names: u32::MAX, ..plan(3, 1, &[], Delays::Longest, 0) };
    let large = Plan { size: Size::Large, ..small.clone() };
    assert!(matches!(Group::<Proved>::new(small).run_to(300), Err(Breach::Full)));
    let mut group = Group::<Proved>::new(large);
    assert_eq!(group.run_to(300), Ok(()));
    assert!(group.watch.log().len() > Size::Small.statements());
}

/// Both programs, in the same schedule, do the same.
#[test]
fn both_programs_run_alike() {
    for (seed, size) in (0..10).zip(Size::ALL.into_iter().cycle()) {
        let plan = plan(5, 2, &[Fault::Wild, Fault::Splitting], Delays::Any, seed);
        let plan = Plan { size, ..plan };
        let mut proved = Group::<Proved>::new(plan.clone());
        let mut second = Group::<Second>::new(plan);
        assert_eq!((proved.run_to(150), second.run_to(150)), (Ok(()), Ok(())));
        assert_eq!(proved.trace.marks, second.trace.marks);
    }
}

/// Letters that travel in relay envelopes make the same run.
#[test]
fn envelopes_change_nothing() {
    for (seed, fault) in (0..).zip(Fault::ALL) {
        let plan = plan(5, 2, &[Fault::Wild, fault], Delays::Any, seed);
        let mut plain = Group::<Proved>::new(plan.clone());
        let mut bundled = Group::<Proved>::new(plan).in_envelopes();
        assert_eq!(plain.run_to(150), bundled.run_to(150));
        assert_eq!(plain.trace.marks, bundled.trace.marks);
        assert_eq!(plain.watch.log(), bundled.watch.log());
        assert_eq!(plain.watch.calls, bundled.watch.calls);
        assert_eq!(plain.envelopes, None);
        assert!(bundled.envelopes > Some(100));
    }
}

/// The second program, told another D, or saying nothing of what it commits.
struct Wrong<const HASTY: bool>(Second);

impl<const HASTY: bool> Program for Wrong<HASTY> {
    const TITLE: &'static str = "wrong";

    fn fresh(size: Size, n: u64, d: u64, own: u64) -> Result<Self, u32> {
        Second::fresh(size, n, if HASTY { d / 2 } else { d }, own).map(Wrong)
    }

    fn step(&mut self, message: &[u8]) -> Answer<'_> {
        self.0.step(message)
    }

    fn tick(&mut self) -> Answer<'_> {
        self.0.tick()
    }

    fn offer(&mut self, name: &[u8]) -> Answer<'_> {
        self.0.offer(name)
    }

    fn phase(&self) -> Phase {
        self.0.phase()
    }

    fn view(&self) -> u32 {
        self.0.view()
    }

    fn lock(&self) -> Lock {
        self.0.lock()
    }

    fn log(&self) -> Vec<Name> {
        if HASTY { self.0.log() } else { Vec::new() }
    }

    fn display(&self) -> Vec<Shown> {
        self.0.display()
    }

    fn certified(&self, view: u64, height: u64, name: &[u8]) -> u64 {
        self.0.certified(view, height, name)
    }

    fn shown(&self) -> Vec<u8> {
        self.0.shown()
    }
}

fn breach<P: Program>(plan: impl Fn(u64) -> Plan) -> Option<String> {
    (0..300).find_map(|seed| match Group::<P>::new(plan(seed)).run_to(200) {
        Err(Breach::Demand(how)) => Some(how),
        _ => None,
    })
}

/// A group whose D is too small splits: the premise is needed, and the check sees it.
#[test]
fn a_delay_bound_that_is_too_small_splits_the_logs() {
    let how = breach::<Wrong<true>>(|seed| plan(3, 4, &[Fault::Wild], Delays::Bounds, seed));
    assert!(how.is_some());
}

#[test]
fn a_station_that_never_commits_is_found() {
    let how = breach::<Wrong<false>>(|seed| plan(3, 2, &[], Delays::Longest, seed));
    assert!(how.is_some_and(|how| how.contains("not")), "the vote lasts, the log lacks it");
}

/// A plan whose sound leaders are offered a name as soon as one is wanted.
fn prompt(n: u8, d: u32, faulty: &[Fault], delays: Delays, seed: u64) -> Plan {
    Plan { prompt: true, ..plan(n, d, faulty, delays, seed) }
}

/// After a faulty leader a sound and prompt one gets on: request 12, which every run looks at.
#[test]
fn prompt_leaders_get_on() {
    for fault in Fault::ALL {
        for delays in [Delays::Longest, Delays::Bounds, Delays::Any] {
            for seed in 0..4 {
                let mut group = Group::<Proved>::new(prompt(3, 2, &[fault], delays, seed));
                match group.run_to(120) {
                    Ok(()) | Err(Breach::Full | Breach::UsedUp) => {}
                    Err(breach) => panic!("{fault}, {delays:?}, seed {seed}: {breach}"),
                }
                assert!(group.watch.progress.views() > 0, "{fault}, seed {seed}");
            }
        }
    }
}

/// Stations whose D is half the network's blame a leader who is in time.
#[test]
fn stations_that_blame_too_early_are_found() {
    let mut group = Group::<Wrong<true>>::new(prompt(3, 4, &[Fault::Silent], Delays::Longest, 1));
    let outcome = group.run_to(200);
    assert!(matches!(outcome, Err(Breach::Progress(_))), "{outcome:?}");
}
