//! A journal in words: what stands in its slots, what the station said to each record, the torn places
//! and the log. The words are those of the script program, docs/SCRIPT.md.

use programs::words;
use station::{
    Effect, Effects, Failure, Input, Message, Refusal, Report, SLOT, Size, Slot, Station,
};
use std::fmt::Write;

/// A journal in words, and whether it was read to its end.
#[derive(Clone, Debug, PartialEq, Eq)]
pub struct Told {
    pub said: String,
    pub is_whole: bool,
}

/// Whose journal it is.
#[derive(Clone, Copy, Debug)]
pub struct Settings {
    pub size: Size,
    pub n: u64,
    pub d: u64,
    pub own: u64,
}

impl Settings {
    fn fresh(&self) -> Result<Station, Refusal> {
        Station::fresh(self.size, self.n, self.d, self.own)
    }
}

/// The proved replay: the station, the report, and whether it came to the journal's end.
fn replayed(settings: Settings, journal: &[u8]) -> Result<(Station, Report, bool), Failure> {
    let mut station = settings.fresh()?;
    match station.replay(journal) {
        Ok(report) => Ok((station, report, true)),
        Err(Failure::Damaged(report)) => Ok((station, report, false)),
        Err(failure) => Err(failure),
    }
}

/// Says what is in a journal. The records go to a station one by one; the proved replay of the whole has
/// to come to the same.
pub fn tell(settings: Settings, journal: &[u8]) -> Result<Told, Failure> {
    let (proved, report, is_whole) = replayed(settings, journal)?;
    let mut teller = Teller { station: settings.fresh()?, silence: None, said: String::new() };
    teller.slots(journal, &report);
    teller.end(journal, &report, is_whole);
    assert_eq!(teller.station.store(), proved.store(), "a replay is its records' calls");
    Ok(Told { said: teller.said, is_whole })
}

/// The records as a script, which `tools/play` takes: it says what the station said to each.
pub fn script(settings: Settings, journal: &[u8]) -> Result<Told, Failure> {
    let Settings { n, d, own, .. } = settings;
    let (_, report, is_whole) = replayed(settings, journal)?;
    let mut said = format!("fresh {n} {d} {own}\n");
    for input in Slot::inputs(&journal[..report.end as usize * SLOT]) {
        said += &format!("{}\n", line(input));
    }
    said += "log\nstate\n";
    Ok(Told { said, is_whole })
}

/// An input as a line of a script.
fn line(input: Input<'_>) -> String {
    match input {
        Input::Tick => "tick".into(),
        Input::Offer(name) => format!("offer {}", words::hex(name)),
        Input::Message(message) => match Message::decode(message) {
            Ok(message) => words::message(message),
            Err(_) => format!("message {}", words::hex(message)),
        },
    }
}

/// Ticks in a row that said nothing: the first and the last of their slots, records and clocks.
#[derive(Clone, Copy)]
struct Silence {
    slots: (usize, usize),
    records: (u32, u32),
    clocks: (u32, u32),
}

struct Teller {
    station: Station,
    silence: Option<Silence>,
    said: String,
}

impl Teller {
    fn print(&mut self, line: std::fmt::Arguments) {
        writeln!(self.said, "{line}").expect("a string takes all");
    }

    /// Each slot up to where the replay ended; what stands behind a slot that stopped it is not told.
    fn slots(&mut self, journal: &[u8], report: &Report) {
        for (place, slot) in Slot::all(journal).enumerate().take(report.end as usize) {
            match slot {
                Slot::Record { sequence, input } => self.record(place, sequence, input),
                Slot::Torn => {
                    self.end_silence();
                    self.print(format_args!("slot {place}: torn"));
                }
                Slot::Blank | Slot::Unreadable => unreachable!("the replay went past it"),
            }
        }
        self.end_silence();
    }

    /// One record, and what the station said to it.
    fn record(&mut self, place: usize, sequence: u32, input: Input<'_>) {
        let answer = self.station.take(input).map(|effects| effects.bytes().to_vec());
        let clock = self.station.clock();
        if input == Input::Tick && answer.as_ref().is_ok_and(Vec::is_empty) {
            let one = Silence {
                slots: (place, place),
                records: (sequence, sequence),
                clocks: (clock, clock),
            };
            return match &mut self.silence {
                Some(Silence { slots, records, clocks }) => {
                    (slots.1, records.1, clocks.1) = (place, sequence, clock);
                }
                none => *none = Some(one),
            };
        }
        self.end_silence();
        let what = match input {
            Input::Tick => format!("tick {}", clock + u32::from(answer.is_err())),
            other => line(other),
        };
        match answer {
            Ok(bytes) => {
                let count = bytes.len();
                self.print(format_args!(
                    "slot {place}: record {sequence}: {what}: 0 done, {count} bytes"
                ));
                for said in words::effects(Effects::new(&bytes)) {
                    self.print(format_args!("  {said}"));
                }
            }
            Err(refusal) => {
                let (number, reason) = (refusal.number(), words::reason(refusal.number()));
                self.print(format_args!(
                    "slot {place}: record {sequence}: {what}: {number} {reason}"
                ));
            }
        }
    }

    fn end_silence(&mut self) {
        let Some(Silence { slots, records, clocks }) = self.silence.take() else { return };
        let (slot, record, clock) = (slots.0, records.0, clocks.0);
        if slots.0 == slots.1 {
            let said = format_args!("slot {slot}: record {record}: tick {clock}: 0 done, 0 bytes");
            return writeln!(self.said, "{said}").expect("a string takes all");
        }
        self.print(format_args!(
            "slots {slot} to {}: records {record} to {}: ticks {clock} to {}: 0 done, 0 bytes each",
            slots.1, records.1, clocks.1
        ));
    }

    /// How the journal ends, and what came of it.
    fn end(&mut self, journal: &[u8], report: &Report, is_whole: bool) {
        let Report { records, end, torn } = report;
        if !is_whole {
            let why = self.why(journal, report);
            self.print(format_args!("slot {end}: 13 journal: {why}"));
        }
        let torn: Vec<String> = torn.iter().map(u32::to_string).collect();
        let torn = if torn.is_empty() { "none".into() } else { torn.join(", ") };
        self.print(format_args!("end of journal: {records} records; torn slots: {torn}"));
        let slots = journal.len() / SLOT;
        let blank = slots - *end as usize;
        match is_whole {
            true => self.print(format_args!("{blank} of {slots} slots are left")),
            false => self.print(format_args!("nothing behind slot {end} was read")),
        }
        let rest = journal.len() % SLOT;
        if rest > 0 {
            self.print(format_args!("{rest} bytes at the end are no slot"));
        }
        self.state();
    }

    /// Why a slot stopped the replay.
    fn why(&self, journal: &[u8], report: &Report) -> String {
        match Slot::all(journal).nth(report.end as usize) {
            Some(Slot::Record { sequence, .. }) if sequence != report.records => {
                format!("record {sequence} where {} is due", report.records)
            }
            Some(Slot::Record { input, .. }) => {
                let answer = self.station.clone().take(input).map(|_| ());
                let refusal = answer.expect_err("a replay stops at what is refused");
                let (number, reason) = (refusal.number(), words::reason(refusal.number()));
                format!("{}: {number} {reason}, so it is not of this station", line(input))
            }
            _ => "it ends in 5A and doesn't read".into(),
        }
    }

    fn state(&mut self) {
        let station = &self.station;
        let phase = words::phase(station.phase(), station.view());
        let (entry, clock, log) = (station.entry(), station.clock(), station.log().to_vec());
        self.print(format_args!("state: {phase}, entered at {entry}, clock {clock}"));
        self.print(format_args!("log: {} logged", log.len()));
        for (height, name) in (1..).zip(log) {
            let committed = words::effect(Effect::Committed { height, name });
            self.print(format_args!("  {committed}"));
        }
    }
}
