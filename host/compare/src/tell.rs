//! What the script program, whose limits are 01's, must print of a script, by the second program.

use crate::text::{self, Line};
use programs::words;
use programs::{Program, Second};
use second::replay::Input;
use second::{choose, envelope};
use station::{Effect, Effects, Name, Size};
use std::fmt::Write;

/// Bytes of a propose on the wall display.
const SHOWN: usize = 47;

/// What is printed. Of a bad line it doesn't say what is wrong, and of a lock not the mask.
pub fn tell(script: &[u8]) -> String {
    let mut teller = Teller::default();
    let (mut count, mut bad) = (0, 0);
    for (number, bytes) in text::lines(script) {
        count = number;
        match text::line(bytes) {
            Some(line) => teller.line(number, line),
            None => {
                bad += 1;
                teller.print(format_args!("line {number}: not taken: "));
            }
        }
    }
    teller.print(format_args!("end of script: {count} lines, {bad} bad"));
    teller.said
}

#[derive(Default)]
struct Teller {
    station: Option<Second>,
    said: String,
}

impl Teller {
    fn print(&mut self, line: std::fmt::Arguments) {
        writeln!(self.said, "{line}").expect("a string takes all");
    }

    fn line(&mut self, number: usize, line: Line) {
        match line {
            Line::Blank => {}
            Line::Input(Input::Tick) => self.ticks(number, 1),
            Line::Ticks(count) => self.ticks(number, count),
            Line::Input(Input::Display) => self.display(number),
            Line::Input(Input::Certified { view, height, name }) => {
                self.certified(number, view, height, &name);
            }
            Line::Input(input) => self.input(number, &input),
            Line::Log => self.log(number),
            Line::State => self.state(number),
            Line::Envelope(bytes) => self.envelope(number, &bytes),
            Line::Choose(first, other) => self.choose(number, &first, &other),
            Line::Slip(name) => self.slip(number, name),
        }
    }

    /// The answer to any input; 2 where there is no station, but for what comes before.
    fn answer(&mut self, input: &Input) -> (u32, Vec<u8>) {
        if let Input::Fresh { n, d, own } = *input {
            return match Second::fresh(Size::Small, n, d, own) {
                Ok(station) => {
                    self.station = Some(station);
                    (0, Vec::new())
                }
                Err(number) => (number, Vec::new()),
            };
        }
        let Some(station) = &mut self.station else {
            let is_short = matches!(input, Input::Offer(name) if name.len() != 32);
            return (if is_short { 1 } else { 2 }, Vec::new());
        };
        let answer = match input {
            Input::Fresh { .. } => unreachable!("a fresh start is answered above"),
            Input::Tick => station.tick(),
            Input::Step(message) => station.step(message),
            Input::Offer(name) => station.offer(name),
            Input::Display | Input::Certified { .. } => unreachable!("a question is told apart"),
        };
        (answer.number, answer.out.to_vec())
    }

    fn input(&mut self, number: usize, input: &Input) {
        let what = match input {
            Input::Fresh { .. } => "fresh",
            Input::Tick => "tick",
            Input::Step(_) => "message",
            Input::Offer(_) => "offer",
            Input::Display | Input::Certified { .. } => unreachable!("a question is told apart"),
        };
        let (refusal, out) = self.answer(input);
        self.answered(number, what, refusal, &out);
    }

    fn answered(&mut self, number: usize, what: &str, refusal: u32, out: &[u8]) {
        if refusal != 0 {
            let reason = words::reason(refusal);
            self.print(format_args!("line {number}: {what}: {refusal} {reason}"));
            return;
        }
        self.print(format_args!("line {number}: {what}: 0 done, {} bytes", out.len()));
        for said in words::effects(Effects::new(out)) {
            self.print(format_args!("  {said}"));
        }
    }

    /// Ticks; those in a row that say nothing share a line.
    fn ticks(&mut self, number: usize, count: u64) {
        let mut told = self.clock();
        for _ in 0..count {
            let before = self.clock();
            let (refusal, out) = self.answer(&Input::Tick);
            if refusal == 0 && out.is_empty() {
                continue;
            }
            self.silence(number, told, before);
            self.answered(number, &format!("tick {}", before + 1), refusal, &out);
            told = self.clock();
            if refusal != 0 {
                return;
            }
        }
        self.silence(number, told, self.clock());
    }

    fn silence(&mut self, number: usize, told: u64, clock: u64) {
        match clock - told {
            0 => {}
            1 => self.print(format_args!("line {number}: tick {clock}: 0 done, 0 bytes")),
            _ => {
                let first = told + 1;
                let what = format!("ticks {first} to {clock}");
                self.print(format_args!("line {number}: {what}: 0 done, 0 bytes each"));
            }
        }
    }

    fn clock(&self) -> u64 {
        self.station.as_ref().map_or(0, |station| station.station().clock().into())
    }

    fn log(&mut self, number: usize) {
        let Some(station) = &self.station else {
            return self.answered(number, "log", 2, &[]);
        };
        let log = station.log();
        self.print(format_args!("line {number}: log: {} logged", log.len()));
        for (height, name) in (1..).zip(log) {
            self.print(format_args!("  {}", words::effect(Effect::Committed { height, name })));
        }
    }

    /// Every message of an envelope is handed over, in order.
    fn envelope(&mut self, number: usize, bytes: &[u8]) {
        let Some(places) = envelope::read(bytes) else {
            return self.answered(number, "envelope", 14, &[]);
        };
        self.print(format_args!("line {number}: envelope: 0 done, {} messages", places.len()));
        for (start, len) in places {
            self.input(number, &Input::Step(bytes[start..start + len].to_vec()));
        }
    }

    /// Which of two reports is taken, in a group of the store's size; nothing is allowed where there is no store.
    fn choose(&mut self, number: usize, first: &[u8], other: &[u8]) {
        let n = self
            .station
            .as_ref()
            .map_or(0, |station| station.station().settings().stations().into());
        let taken = choose(0, n, first, other);
        let said: String = match taken {
            [] => "neither # -".into(),
            _ if std::ptr::eq(taken.as_ptr_range().end, first.as_ptr_range().end) => {
                format!("the first # {}", words::hex(taken))
            }
            _ => format!("the second # {}", words::hex(taken)),
        };
        self.print(format_args!("line {number}: choose: {said}"));
    }

    /// The slip of a logged block.
    fn slip(&mut self, number: usize, name: Name) {
        let Some(station) = &self.station else {
            return self.answered(number, "slip", 2, &[]);
        };
        let Some(slip) = station.station().slip(second::Name::from_bytes(name)) else {
            return self.answered(number, "slip", 15, &[]);
        };
        self.print(format_args!("line {number}: slip: 0 done, {} bytes", slip.len()));
        self.print(format_args!("  slip: {}", words::hex(&slip)));
    }

    fn display(&mut self, number: usize) {
        let Some(station) = &self.station else {
            return self.answered(number, "display", 2, &[]);
        };
        let mut out = Vec::new();
        station.station().show(&mut out);
        let display = station.display();
        self.print(format_args!("line {number}: display: 0 done, {} bytes", out.len()));
        for (shown, field) in display.iter().zip(out.chunks(SHOWN)) {
            let (height, name, left) =
                (shown.height, words::name(shown.name), left(shown.ticks_left));
            let field = words::hex(field);
            self.print(format_args!("  shown: height {height} name {name}, {left} # {field}"));
        }
    }

    /// When a block was certified.
    fn certified(&mut self, number: usize, view: u64, height: u64, name: &[u8]) {
        let Some(station) = &self.station else {
            return self.answered(number, "certified", 2, &[]);
        };
        let said = since(station.station().certified(view, height, name).ok().flatten());
        self.print(format_args!("line {number}: certified: {said}"));
    }

    fn state(&mut self, number: usize) {
        let Some(station) = &self.station else {
            return self.answered(number, "state", 2, &[]);
        };
        let phase = words::phase(station.phase(), station.view());
        let (entry, clock) = (station.station().entry(), station.station().clock());
        let lock = station.lock();
        let (height, name, view) = (lock.height, words::name(lock.name), lock.view);
        let certified = station.station().certified(view.into(), height.into(), &lock.name);
        let certified = since(certified.ok().flatten());
        self.print(format_args!(
            "line {number}: state: {phase}, entered at {entry}, clock {clock}"
        ));
        self.print(format_args!(
            "  lock: status height {height} name {name} certificate {view} mask"
        ));
        self.print(format_args!("  lock certified: {certified}"));
    }
}

/// When a block was certified, in words.
fn since(clock: Option<u32>) -> String {
    clock.map_or("none".into(), |clock| format!("at clock {clock}"))
}

/// Ticks left, in words.
fn left(ticks: i64) -> String {
    let count = |ticks: u64| if ticks == 1 { "1 tick".into() } else { format!("{ticks} ticks") };
    match ticks {
        0 => "due now".into(),
        1.. => format!("{} left", count(ticks.unsigned_abs())),
        _ => format!("overdue by {}", count(ticks.unsigned_abs())),
    }
}
