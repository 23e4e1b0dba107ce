//! A slip in words: the verdict, each entry, when a store saw each certified, and what a slip doesn't
//! show. No line has more than 80 columns.

#![forbid(unsafe_code)]

use programs::words::{hex, stations};
use station::{BadSlip, Message, Size, Slip, Station};
use std::fmt::Write;

/// What a slip doesn't show.
const NO_COMMIT: &str = "\
A slip shows a chain, not a commit. Each entry below the top was certified by
the stations named above it, f+1 of the group or more. Whether any station has
logged the top is not on this slip: ask a station for its log.
";

/// What was said of some bytes, and whether they are a slip.
#[derive(Debug)]
pub struct Told {
    pub said: String,
    pub is_accepted: bool,
}

/// The slip of an input, in hex or raw: a slip begins with the byte 40, which no hex does.
pub fn bytes(input: &[u8]) -> Vec<u8> {
    let digits: Vec<u8> =
        input.iter().copied().filter(|byte| !byte.is_ascii_whitespace()).collect();
    let is_hex = digits.len().is_multiple_of(2) && digits.iter().all(u8::is_ascii_hexdigit);
    if !is_hex {
        return input.to_vec();
    }
    let digit = |byte: u8| (byte as char).to_digit(16).expect("a digit") as u8;
    digits.chunks_exact(2).map(|pair| digit(pair[0]) * 16 + digit(pair[1])).collect()
}

/// What is on a slip of a group of n stations; why nothing could be checked.
pub fn tell(size: Size, n: u64, input: &[u8]) -> Result<Told, String> {
    told(size, n, None, input)
}

/// What is on a slip of a station's group, and when that station saw each entry certified.
pub fn tell_by(station: &Station, input: &[u8]) -> Result<Told, String> {
    told(station.size(), station.stations().into(), Some(station), input)
}

fn told(size: Size, n: u64, station: Option<&Station>, input: &[u8]) -> Result<Told, String> {
    let bytes = bytes(input);
    let mut said = String::new();
    let is_accepted = match Slip::check(size, n, &bytes) {
        Ok(slip) => {
            accepted(&slip, n, &mut said);
            if let Some(station) = station {
                seen(&slip, station, &mut said);
            }
            true
        }
        Err(BadSlip::Place(place)) => {
            let length = bytes.len();
            writeln!(said, "refused: 15, no slip, bad at place {place} of {length} bytes").unwrap();
            writeln!(said, "{}", found(&bytes, place as usize)).unwrap();
            false
        }
        Err(bad) => return Err(bad.to_string()),
    };
    said.push('\n');
    said.push_str(NO_COMMIT);
    Ok(Told { said, is_accepted })
}

fn accepted(slip: &Slip<'_>, n: u64, said: &mut String) {
    let height = slip.height();
    let entries = if height == 1 { "entry" } else { "entries" };
    writeln!(said, "accepted: {height} {entries}, in a group of {n} stations").unwrap();
    writeln!(said, "block {}", hex(&slip.name())).unwrap();
    said.push_str("\nplace height view leader  name            the block below is certified by\n");
    for (place, entry) in slip.entries().enumerate() {
        let Message::Propose { view, height, name, mask, author, .. } = entry else {
            unreachable!("a checked slip has proposes alone")
        };
        let name = hex(&name[..6]);
        writeln!(said, "{place:5} {height:6} {view:4} {author:6}  {name}..  {}", stations(mask))
            .unwrap();
    }
}

/// When a station saw each entry certified: the clock at which it first had f+1 votes for the block, in
/// the entry's own view or in that of the entry above, which certifies it.
fn seen(slip: &Slip<'_>, station: &Station, said: &mut String) {
    let (own, clock) = (station.own(), station.clock());
    writeln!(said, "\nseen certified by station {own}, whose clock is {clock} now").unwrap();
    said.push_str("place height  at clock\n");
    let mut above = None;
    for (place, entry) in slip.entries().enumerate() {
        let Message::Propose { view, height, name, .. } = entry else {
            unreachable!("a checked slip has proposes alone")
        };
        let views = [Some(view), above].into_iter().flatten();
        let first = views.filter_map(|view| station.certified(view, height, &name)).min();
        let first = first.map_or("not seen".into(), |clock| clock.to_string());
        writeln!(said, "{place:5} {height:6}  {first}").unwrap();
        above = Some(view);
    }
}

/// What stands at a bad place.
fn found(slip: &[u8], place: usize) -> String {
    const NAME: usize = 35;
    const ENTRY: usize = 100;
    let at = NAME + ENTRY * place;
    let entry = slip.get(at..at + ENTRY).and_then(|field| {
        field.strip_prefix(&[0x41, 0, 97]).and_then(|message| Message::decode(message).ok())
    });
    match entry {
        _ if place == 0 && !slip.starts_with(&[0x40, 0, 32]) => "there is no name".into(),
        Some(Message::Propose { view, height, name, mask, author, .. }) => format!(
            "there: height {height} view {view} leader {author} name {}.. mask {}\n\
             not allowed, or not the block that stands above it asks for",
            hex(&name[..6]),
            stations(mask)
        ),
        Some(_) => "there: a message that is no propose".into(),
        None if at >= slip.len() => "there: nothing, an entry is missing".into(),
        None => "there: bytes that are no entry".into(),
    }
}
