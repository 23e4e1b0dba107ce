//! Three kept stations are killed (SIGKILL) at random moments, some hundred times, and started again.
//! What was ever committed is in the log after each start, what was ever kept is in the journal, and the
//! group gets on with it as if nothing had been: at the end every log has every card.

use second::random::Random;
use station::{Input, SLOT, Slot, ffi};
use std::collections::BTreeMap;
use std::fs::{self, OpenOptions};
use std::io::{BufRead, BufReader, Seek, SeekFrom, Write};
use std::path::{Path, PathBuf};
use std::process::{Child, Command, Stdio};
use std::time::{Duration, Instant};

const STATIONS: usize = 3;
const KILLS: u32 = 250;
const CARDS: usize = 40;

/// What the killed ones have said, station by station.
#[derive(Default)]
struct Said {
    /// The last count of records that a station said it has.
    kept: [u32; STATIONS],
    /// Its commits, by height.
    commits: [BTreeMap<u32, String>; STATIONS],
    /// The torn slots that its journal was given.
    torn: [usize; STATIONS],
}

/// What one start found.
#[derive(Default)]
struct Found {
    logs: [BTreeMap<u32, String>; STATIONS],
    /// Records and torn slots.
    counts: [Option<(u32, usize)>; STATIONS],
    has_started: bool,
    is_done: bool,
}

impl Said {
    /// One line; it says how a start went on from what was said before.
    fn hear(&mut self, line: &str, found: &mut Found) {
        let words: Vec<&str> = line.split(' ').collect();
        let own = || words[1].parse::<usize>().unwrap();
        match words[0] {
            "start" => {
                found.counts[own()] = Some((words[2].parse().unwrap(), words[3].parse().unwrap()));
            }
            "log" => drop(found.logs[own()].insert(words[2].parse().unwrap(), words[3].into())),
            "started" => {
                found.has_started = true;
                self.look(found);
                self.kept = found.counts.map(|counts| counts.unwrap_or_default().0);
            }
            "kept" => self.kept[own()] = words[2].parse().unwrap(),
            "commit" => {
                let before = self.commits[own()].insert(words[2].parse().unwrap(), words[3].into());
                assert_eq!(before, None, "each is reported once: {line}");
            }
            "done" => found.is_done = true,
            _ => panic!("{line}"),
        }
    }

    /// No committed entry is missing from the log, no kept input from the journal, every torn slot was
    /// passed, and of two logs one begins the other.
    fn look(&self, found: &Found) {
        for own in 0..STATIONS {
            for (height, name) in &self.commits[own] {
                assert_eq!(found.logs[own].get(height), Some(name), "station {own}, {height}");
            }
            let (records, torn) = found.counts[own].unwrap_or_default();
            assert!(records >= self.kept[own], "station {own} lost a record");
            assert!(records <= self.kept[own] + 1, "station {own} has one that was never taken");
            assert_eq!(torn, self.torn[own], "station {own}");
            for (height, name) in &found.logs[own] {
                let other = found.logs[(own + 1) % STATIONS].get(height);
                assert!(other.is_none_or(|other| other == name), "two logs differ at {height}");
            }
        }
    }
}

fn start(directory: &Path) -> Child {
    let mut command = Command::new(env!("CARGO_BIN_EXE_outage"));
    command.arg(directory).arg(CARDS.to_string()).stdout(Stdio::piped());
    command.spawn().unwrap()
}

/// Starts the group and lets it say so many lines, and a little more; then kills it and hears the rest.
/// Without a count it may go on to its end.
fn life(directory: &Path, said: &mut Said, lines: Option<u64>, wait: Duration) -> Found {
    let mut group = start(directory);
    let mut out = BufReader::new(group.stdout.take().unwrap());
    let mut found = Found::default();
    let mut line = String::new();
    let mut heard = 0;
    loop {
        if Some(heard) == lines {
            let start = Instant::now();
            while start.elapsed() < wait {
                std::hint::spin_loop();
            }
            // SIGKILL: it can't be caught.
            group.kill().unwrap();
        }
        line.clear();
        // A line that was cut short is not one.
        if out.read_line(&mut line).unwrap() == 0 || !line.ends_with('\n') {
            break;
        }
        said.hear(line.trim_end(), &mut found);
        // What a start finds is not waited for in lines: it gets longer with every life.
        heard += u64::from(found.has_started);
    }
    group.wait().unwrap();
    found
}

fn journal(directory: &Path, own: usize) -> PathBuf {
    directory.join(format!("station-{own}.journal"))
}

/// Leaves a journal as a cut in the midst of its next record does.
fn tear(directory: &Path, own: usize, random: &mut Random, said: &mut Said) {
    let path = journal(directory, own);
    let bytes = fs::read(&path).unwrap_or_default();
    let mut slots = Slot::all(&bytes);
    let Some(blank) = slots.position(|slot| slot == Slot::Blank) else { return };
    let mut slot = [0; SLOT];
    let records = Slot::inputs(&bytes).count() as u64;
    assert_eq!(ffi::journal_put(&mut slot, records, Input::Tick.kind().into(), &[]), 128);
    let mut file = OpenOptions::new().write(true).open(&path).unwrap();
    file.seek(SeekFrom::Start((blank * SLOT) as u64)).unwrap();
    file.write_all(&slot[..1 + random.place(SLOT - 1)]).unwrap();
    said.torn[own] += 1;
}

#[test]
fn what_was_committed_outlives_every_kill() {
    let mut random = Random::new(0x6f75_7461_6765);
    let mut kills = 0;
    let mut run = 0;
    while kills < KILLS {
        run += 1;
        let directory = Path::new(env!("CARGO_TARGET_TMPDIR")).join(format!("outage-{run}"));
        let _ = fs::remove_dir_all(&directory);
        fs::create_dir_all(&directory).unwrap();
        let mut said = Said::default();
        while kills < KILLS {
            // Some are killed while they start, at any moment of that.
            let lines = if random.one_in(8) { 0 } else { 1 + random.below(5) };
            let wait = Duration::from_micros(random.below(3000));
            let found = life(&directory, &mut said, Some(lines), wait);
            if found.is_done {
                break;
            }
            kills += 1;
            if random.one_in(4) {
                tear(&directory, random.place(STATIONS), &mut random, &mut said);
            }
        }
        let found = life(&directory, &mut said, None, Duration::ZERO);
        assert!(found.is_done, "run {run} came to no end");
        // Everything that was said adds up: each card was committed once, at its height, in each log.
        let found = life(&directory, &mut said, None, Duration::ZERO);
        assert!(found.is_done && found.logs.iter().all(|log| *log == found.logs[0]));
        assert_eq!(found.logs[0].len(), CARDS);
    }
    println!("killed {kills} times in {run} runs");
}
