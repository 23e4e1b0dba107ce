//! Scripts (docs/SCRIPT.md): a run written as one, and lines read.

use second::replay::{self, Input};
use station::{Message, Name};
use std::fmt::Write;

/// The longest line, in bytes.
pub const LONGEST: usize = 4096;

/// What a line asks for.
#[derive(Clone, Debug, PartialEq, Eq)]
pub enum Line {
    Blank,
    Input(Input),
    Ticks(u64),
    Log,
    State,
    Envelope(Vec<u8>),
    Choose(Vec<u8>, Vec<u8>),
    Slip(Name),
}

/// The script of a run.
pub fn write(inputs: &[Input]) -> String {
    let mut script = String::new();
    for input in inputs {
        let line = input.to_string();
        let line = match line.strip_prefix("step ") {
            Some(hex) => format!("message {hex}"),
            None => line,
        };
        writeln!(script, "{line}").expect("a string takes all");
    }
    script
}

/// The run of a script, or the line that is none of it. `log`, `state`, `choose` and `slip` change nothing, and
/// envelopes are not unpacked here.
pub fn read(script: &[u8]) -> Result<Vec<Input>, String> {
    let mut inputs = Vec::new();
    for (number, bytes) in lines(script) {
        let said = line(bytes).ok_or_else(|| {
            format!("line {number} is no input: {}", String::from_utf8_lossy(bytes))
        })?;
        match said {
            Line::Input(input) => inputs.push(input),
            Line::Ticks(count) => inputs.extend((0..count).map(|_| Input::Tick)),
            Line::Blank | Line::Log | Line::State | Line::Choose(..) | Line::Slip(_) => {}
            Line::Envelope(_) => return Err(format!("line {number} is an envelope")),
        }
    }
    Ok(inputs)
}

/// The lines of a script with their numbers. The last may lack its end.
pub fn lines(script: &[u8]) -> impl Iterator<Item = (usize, &[u8])> {
    let whole = script.strip_suffix(b"\n").unwrap_or(script);
    let lines = (!script.is_empty()).then(|| whole.split(|byte| *byte == b'\n'));
    (1..).zip(lines.into_iter().flatten())
}

/// What a line asks for, if it is one.
pub fn line(bytes: &[u8]) -> Option<Line> {
    if bytes.len() > LONGEST {
        return None;
    }
    let said = bytes.split(|byte| *byte == b'#').next()?;
    let words = said.split(|byte| b" \t\r".contains(byte)).filter(|word| !word.is_empty());
    let words: Vec<&str> = words.map(std::str::from_utf8).collect::<Result<_, _>>().ok()?;
    Some(match words[..] {
        [] => Line::Blank,
        ["fresh", n, d, own] => {
            Line::Input(Input::Fresh { n: number(n)?, d: number(d)?, own: number(own)? })
        }
        ["tick"] => Line::Input(Input::Tick),
        ["tick", count] => Line::Ticks(number(count)?),
        ["message", hex] => Line::Input(Input::Step(replay::bytes(hex)?)),
        ["offer", hex] => Line::Input(Input::Offer(replay::bytes(hex)?)),
        ["display"] => Line::Input(Input::Display),
        ["log"] => Line::Log,
        ["state"] => Line::State,
        ["envelope", hex] => Line::Envelope(replay::bytes(hex)?),
        ["slip", ref words @ ..] => {
            let mut words = Words(words);
            let name = words.name("name")?;
            words.0.is_empty().then_some(Line::Slip(name))?
        }
        ["certified", ref words @ ..] => {
            let mut words = Words(words);
            let (view, height) = (words.four("view")?.into(), words.four("height")?.into());
            let name = words.name("name")?.to_vec();
            words.0.is_empty().then_some(Line::Input(Input::Certified { view, height, name }))?
        }
        ["choose", first, other] => Line::Choose(replay::bytes(first)?, replay::bytes(other)?),
        [kind, ref words @ ..] => Line::Input(Input::Step(message(kind, words)?.encode())),
    })
}

fn number(word: &str) -> Option<u64> {
    let is_decimal = word.bytes().all(|byte| byte.is_ascii_digit());
    is_decimal.then(|| word.parse().ok())?
}

/// A message in words.
fn message(kind: &str, words: &[&str]) -> Option<Message> {
    let mut words = Words(words);
    let message = match kind {
        "new-view" => Message::NewView {
            view: words.four("view")?,
            height: words.four("height")?,
            name: words.name("name")?,
            certificate_view: words.four("certificate")?,
            mask: words.mask()?,
            author: words.author()?,
        },
        "propose" => Message::Propose {
            view: words.four("view")?,
            height: words.four("height")?,
            name: words.name("name")?,
            parent: words.name("parent")?,
            mask: words.mask()?,
            author: words.author()?,
        },
        "vote" => Message::Vote {
            view: words.four("view")?,
            height: words.four("height")?,
            name: words.name("name")?,
            author: words.author()?,
        },
        "blame" => Message::Blame { view: words.four("view")?, author: words.author()? },
        "blame-set" => Message::BlameSet { view: words.four("view")?, mask: words.mask()? },
        "status" => Message::Status {
            height: words.four("height")?,
            name: words.name("name")?,
            certificate_view: words.four("certificate")?,
            mask: words.mask()?,
        },
        _ => return None,
    };
    words.0.is_empty().then_some(message)
}

/// The words of a message that are still to be read.
struct Words<'a>(&'a [&'a str]);

impl Words<'_> {
    /// The next value, behind its label, which may be left out.
    fn value(&mut self, label: &str) -> Option<&str> {
        if self.0.first() == Some(&label) {
            self.0 = &self.0[1..];
        }
        let (value, rest) = self.0.split_first()?;
        self.0 = rest;
        Some(value)
    }

    fn four(&mut self, label: &str) -> Option<u32> {
        number(self.value(label)?)?.try_into().ok()
    }

    fn author(&mut self) -> Option<u8> {
        number(self.value("author")?)?.try_into().ok()
    }

    fn name(&mut self, label: &str) -> Option<Name> {
        let word = self.value(label)?;
        let bytes = replay::bytes(&format!("{word:0>64}"))?;
        bytes.try_into().ok()
    }

    fn mask(&mut self) -> Option<u16> {
        let word = self.value("mask")?;
        if word == "-" {
            return Some(0);
        }
        let bits = word.split('+').map(|word| number(word).filter(|station| *station < 16));
        bits.map(|station| Some(1u16 << station?)).try_fold(0, |mask, bit| Some(mask | bit?))
    }
}

#[cfg(test)]
mod tests {
    use super::*;

    #[test]
    fn what_is_written_reads_back() {
        let inputs = [
            Input::Fresh { n: 3, d: 10_000, own: 2 },
            Input::Tick,
            Input::Step(vec![1, 0xab]),
            Input::Step(vec![]),
            Input::Offer(vec![7; 32]),
        ];
        let script = write(&inputs);
        assert!(script.starts_with("fresh 3 10000 2\ntick\nmessage 01ab\nmessage -\noffer 0707"));
        assert_eq!(read(format!("# remark\n\n{script}").as_bytes()), Ok(inputs.to_vec()));
        assert!(read(b"tick\nstep 00").unwrap_err().starts_with("line 2 "));
    }

    #[test]
    fn messages_are_said_in_words() {
        let blame = Message::Blame { view: 1, author: 2 }.encode();
        let set = Message::BlameSet { view: 1, mask: 0b101 }.encode();
        let script =
            b"blame view 1 author 2\r\nblame 1 2 # short\n\tblame-set 1 mask 0+2\ntick 2\nlog";
        let inputs = [blame.clone(), blame, set].map(Input::Step);
        assert_eq!(read(script), Ok([&inputs[..], &[Input::Tick, Input::Tick]].concat()));
        for bad in ["blame author 2 view 1", "blame 1", "blame 1 256", "blame-set 1 16", "tick +1"]
        {
            assert_eq!(line(bad.as_bytes()), None, "{bad}");
        }
    }
}
