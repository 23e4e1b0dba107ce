//! What the script program says, in its words: docs/SCRIPT.md.

use station::{Cause, Effect, Effects, GENESIS, Message, Name, Phase};

/// The reasons of 01's "When the desk says no", and of 02's numbers.
const REASONS: [&str; 15] = [
    "store not of its exact length, offered name not 32 bytes, or out buffer too short",
    "store not well formed",
    "already stopped",
    "unreadable message",
    "message not allowed",
    "no record free for what this input must add",
    "a due commit differs from the log at a height",
    "tick at clock 4,000,000,000",
    "offer not to be taken",
    "bad settings for a fresh store",
    "more than one view ahead of the view held or last quit",
    "the vote's author has opened as many tallies as one may",
    "a record of the journal is missing, repeated or can't be read",
    "no good envelope",
    "no slip: the name is not logged",
];

/// What a refusal of a station says.
pub fn reason(refusal: u32) -> &'static str {
    REASONS[refusal as usize - 1]
}

/// A station's phase, with the view that it is or was in.
pub fn phase(phase: Phase, view: u32) -> String {
    match phase {
        Phase::InView => format!("in view {view}"),
        Phase::Waiting { quit } => format!("waiting after view {view}, quit at {quit}"),
        Phase::Stopped(Cause::Full) => format!("stopped, full, in view {view}"),
        Phase::Stopped(Cause::Split) => format!("stopped, split, in view {view}"),
        Phase::Stopped(Cause::Clock) => format!("stopped, clock, in view {view}"),
    }
}

/// What a call wrote: each field with its bytes.
pub fn effects(mut effects: Effects<'_>) -> impl Iterator<Item = String> {
    std::iter::from_fn(move || {
        let before = effects.bytes();
        let said = effects.next()?;
        let field = &before[..before.len() - effects.bytes().len()];
        Some(format!("{} # {}", effect(said), hex(field)))
    })
}

/// What an outgoing field says.
pub fn effect(effect: Effect) -> String {
    match effect {
        Effect::ToAll(message) => format!("to all: {}", self::message(message)),
        Effect::ToOne { station, message } => format!("to {station}: {}", self::message(message)),
        Effect::Committed { height, name } => {
            format!("committed: height {height} name {}", self::name(name))
        }
    }
}

/// A message as a line of a script.
pub fn message(message: Message) -> String {
    match message {
        Message::NewView { view, height, name, certificate_view, mask, author } => format!(
            "new-view view {view} height {height} name {} certificate {certificate_view} mask {} author {author}",
            self::name(name),
            stations(mask)
        ),
        Message::Propose { view, height, name, parent, mask, author } => format!(
            "propose view {view} height {height} name {} parent {} mask {} author {author}",
            self::name(name),
            self::name(parent),
            stations(mask)
        ),
        Message::Vote { view, height, name, author } => {
            format!("vote view {view} height {height} name {} author {author}", self::name(name))
        }
        Message::Blame { view, author } => format!("blame view {view} author {author}"),
        Message::BlameSet { view, mask } => {
            format!("blame-set view {view} mask {}", stations(mask))
        }
        Message::Status { height, name, certificate_view, mask } => format!(
            "status height {height} name {} certificate {certificate_view} mask {}",
            self::name(name),
            stations(mask)
        ),
    }
}

pub fn hex(bytes: &[u8]) -> String {
    bytes.iter().map(|byte| format!("{byte:02x}")).collect()
}

/// A name as a script has it.
pub fn name(name: Name) -> String {
    if name == GENESIS { "0".into() } else { hex(&name).trim_start_matches('0').into() }
}

/// The stations of a mask.
pub fn stations(mask: u16) -> String {
    let stations = (0..16).filter(|station| mask >> station & 1 == 1);
    let words: Vec<String> = stations.map(|station: u16| station.to_string()).collect();
    if words.is_empty() { "-".into() } else { words.join("+") }
}
