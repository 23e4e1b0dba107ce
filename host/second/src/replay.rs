//! Recorded runs of one station: `fresh N D OWN`, `tick`, `step HEX`, `offer HEX` or `display`, each
//! followed by `= CODE HEXOUT`, with `-` for no bytes, or `certified VIEW HEIGHT HEXNAME`, followed by
//! `= CODE COUNT`; and lines of `#` to people. Read, written and replayed.

use crate::settings::Limits;
use crate::station::Station;
use std::fmt;

/// What is handed to a station.
#[derive(Clone, Debug, PartialEq, Eq)]
pub enum Input {
    Fresh {
        n: u64,
        d: u64,
        own: u64,
    },
    Tick,
    Step(Vec<u8>),
    Offer(Vec<u8>),
    /// The wall display, which changes nothing.
    Display,
    /// When a block was certified, which changes nothing either.
    Certified {
        view: u64,
        height: u64,
        name: Vec<u8>,
    },
}

/// What comes back: 01's number, and the bytes written; of a call that writes none, its count.
#[derive(Clone, Debug, Default, PartialEq, Eq)]
pub struct Answer {
    pub code: u32,
    pub out: Vec<u8>,
    pub count: Option<u32>,
}

/// One input with its answer, and the line it stood in.
#[derive(Clone, Debug, PartialEq, Eq)]
pub struct Event {
    pub line: usize,
    pub input: Input,
    pub answer: Answer,
}

/// Runs inputs one after another, all with the same limits. A refused fresh start leaves the station
/// of before.
#[derive(Clone, Debug)]
pub struct Run {
    limits: Limits,
    station: Option<Station>,
}

impl Run {
    pub fn new(limits: Limits) -> Run {
        Run { limits, station: None }
    }

    pub fn station(&self) -> Option<&Station> {
        self.station.as_ref()
    }

    /// The answer to one input; none if there is no station yet.
    pub fn answer(&mut self, input: &Input) -> Option<Answer> {
        let (mut out, mut count) = (Vec::new(), None);
        let code = match input {
            Input::Fresh { n, d, own } => self.fresh(*n, *d, *own),
            Input::Tick => self.station.as_mut()?.tick(&mut out),
            Input::Step(message) => self.station.as_mut()?.step(message, &mut out),
            Input::Offer(name) => self.station.as_mut()?.offer(name, &mut out),
            Input::Display => {
                self.station.as_ref()?.show(&mut out);
                0
            }
            Input::Certified { view, height, name } => {
                let answer = self.station.as_ref()?.certified(*view, *height, name);
                // 0 for none, else one more than the clock
                count = Some(answer.map_or(0, |clock| clock.map_or(0, |clock| clock + 1)));
                answer.err().unwrap_or(0)
            }
        };
        Some(Answer { code, out, count })
    }

    fn fresh(&mut self, n: u64, d: u64, own: u64) -> u32 {
        match Station::fresh(self.limits, n, d, own) {
            Ok(station) => {
                self.station = Some(station);
                0
            }
            Err(code) => code,
        }
    }
}

/// Replays a run: the count of its inputs, or where it first goes another way.
pub fn replay(limits: Limits, text: &str) -> Result<usize, String> {
    let events = parse(text)?;
    let mut run = Run::new(limits);
    for event in &events {
        let Some(answer) = run.answer(&event.input) else {
            return Err(format!("line {}: no station yet", event.line));
        };
        if answer != event.answer {
            return Err(format!(
                "line {}: {}\n  recorded {}\n  answered {}",
                event.line, event.input, event.answer, answer
            ));
        }
    }
    Ok(events.len())
}

/// The events of a recorded run.
pub fn parse(text: &str) -> Result<Vec<Event>, String> {
    let mut lines = (1..).zip(text.lines()).filter(|(_, line)| !is_remark(line));
    let mut events = Vec::new();
    while let Some((line, words)) = lines.next() {
        let bad = |what: &str| format!("line {line}: {what}");
        let input = parse_input(words).ok_or_else(|| bad("not an input"))?;
        let (_, words) = lines.next().ok_or_else(|| bad("no answer follows"))?;
        let counts = matches!(input, Input::Certified { .. });
        let answer = parse_answer(words, counts).ok_or_else(|| bad("not an answer"))?;
        events.push(Event { line, input, answer });
    }
    Ok(events)
}

fn is_remark(line: &str) -> bool {
    line.trim().is_empty() || line.starts_with('#')
}

fn parse_input(line: &str) -> Option<Input> {
    let words: Vec<&str> = line.split_whitespace().collect();
    let number = |word: &str| word.parse().ok();
    match words[..] {
        ["fresh", n, d, own] => {
            Some(Input::Fresh { n: number(n)?, d: number(d)?, own: number(own)? })
        }
        ["tick"] => Some(Input::Tick),
        ["step", message] => bytes(message).map(Input::Step),
        ["offer", name] => bytes(name).map(Input::Offer),
        ["display"] => Some(Input::Display),
        ["certified", view, height, name] => Some(Input::Certified {
            view: number(view)?,
            height: number(height)?,
            name: bytes(name)?,
        }),
        _ => None,
    }
}

fn parse_answer(line: &str, counts: bool) -> Option<Answer> {
    let words: Vec<&str> = line.split_whitespace().collect();
    let ["=", code, said] = words[..] else { return None };
    let code = code.parse().ok()?;
    if counts {
        return Some(Answer { code, out: Vec::new(), count: Some(said.parse().ok()?) });
    }
    Some(Answer { code, out: bytes(said)?, count: None })
}

/// The bytes that a word of hex, or `-`, stands for.
pub fn bytes(hex: &str) -> Option<Vec<u8>> {
    if hex == "-" {
        return Some(Vec::new());
    }
    if !hex.len().is_multiple_of(2) || !hex.bytes().all(|digit| digit.is_ascii_hexdigit()) {
        return None;
    }
    let pairs = (0..hex.len()).step_by(2);
    pairs.map(|at| u8::from_str_radix(&hex[at..at + 2], 16).ok()).collect()
}

/// Bytes as a word of hex, or `-`.
struct Hex<'a>(&'a [u8]);

impl fmt::Display for Hex<'_> {
    fn fmt(&self, f: &mut fmt::Formatter<'_>) -> fmt::Result {
        if self.0.is_empty() {
            return f.write_str("-");
        }
        self.0.iter().try_for_each(|byte| write!(f, "{byte:02x}"))
    }
}

impl fmt::Display for Input {
    fn fmt(&self, f: &mut fmt::Formatter<'_>) -> fmt::Result {
        match self {
            Input::Fresh { n, d, own } => write!(f, "fresh {n} {d} {own}"),
            Input::Tick => f.write_str("tick"),
            Input::Step(message) => write!(f, "step {}", Hex(message)),
            Input::Offer(name) => write!(f, "offer {}", Hex(name)),
            Input::Display => f.write_str("display"),
            Input::Certified { view, height, name } => {
                write!(f, "certified {view} {height} {}", Hex(name))
            }
        }
    }
}

impl fmt::Display for Event {
    fn fmt(&self, f: &mut fmt::Formatter<'_>) -> fmt::Result {
        write!(f, "{}\n{}", self.input, self.answer)
    }
}

impl fmt::Display for Answer {
    fn fmt(&self, f: &mut fmt::Formatter<'_>) -> fmt::Result {
        match self.count {
            Some(count) => write!(f, "= {} {count}", self.code),
            None => write!(f, "= {} {}", self.code, Hex(&self.out)),
        }
    }
}
