//! A complete small host: three stations in one process, with a network that takes one tick.
//!
//! Shown is all that a host has to do: seals (in place of signatures) for every claim of a message,
//! names that fix a block's height, parent and text, a journal that has each input before anything is
//! sent, its replay after a power cut, offers by the leader, and an answer to every refusal.
//! `examples/host.c` is the same host in C.
//!
//!     cargo run --release --example host -- DIRECTORY

use station::{Effect, Failure, GENESIS, Input, Kept, Message, Name, Refusal, SLOT, Size, ffi};
use std::collections::HashMap;
use std::fs::{self, OpenOptions};
use std::io::{self, Seek, SeekFrom, Write};
use std::path::{Path, PathBuf};

const STATIONS: u8 = 3;
const DELAY: u32 = 2;
const TICKS: u32 = 24;
const SLOTS: u32 = 256;
const CARDS: [&str; 3] = ["card for Ada", "card for Bela", "card for Chandra"];

/// Stands where a signature belongs. It protects nothing: a real host signs, with a key that no
/// other host has.
type Seal = u64;

/// 64 bits of FNV-1a, which is no cryptographic hash either: a real host takes SHA-256 or better.
fn hash(start: u64, bytes: &[u8]) -> u64 {
    let step = |hash: u64, byte: &u8| (hash ^ u64::from(*byte)).wrapping_mul(0x100_0000_01b3);
    bytes.iter().fold(start ^ 0xcbf2_9ce4_8422_2325, step)
}

fn seal(station: u8, claim: &[u8]) -> Seal {
    hash(0x5ea1 + u64::from(station), claim)
}

/// A block's name: it fixes the height, the parent and the text, so that no name is of two blocks.
fn name_of(height: u32, parent: &Name, text: &str) -> Name {
    let bytes = [&height.to_be_bytes()[..], parent, text.as_bytes()].concat();
    let mut name = GENESIS;
    for (word, eight) in name.chunks_exact_mut(8).enumerate() {
        eight.copy_from_slice(&hash(word as u64, &bytes).to_be_bytes());
    }
    name
}

/// What travels between hosts: a message, the seals of its claims, and a propose's text.
struct Letter {
    due: u32,
    to: u8,
    message: Message,
    seals: Vec<Seal>,
    text: Option<&'static str>,
}

/// One station with its host. What stands here besides the station a real host keeps on the disk as
/// well.
struct Host {
    own: u8,
    kept: Kept,
    journal: PathBuf,
    /// Seals of claims, made here or received: a certificate that is sent needs them again.
    seals: HashMap<Vec<u8>, Seal>,
    texts: HashMap<Name, &'static str>,
    /// The block that the next one is put upon, while this station leads.
    top: (u32, Name),
    offered: usize,
}

impl Host {
    fn new(own: u8, directory: &Path) -> io::Result<Host> {
        let journal = directory.join(format!("station-{own}.journal"));
        // Each run of this example is a new group; a real host never does away with a journal.
        let _ = fs::remove_file(&journal);
        let (n, d) = (STATIONS.into(), DELAY.into());
        let kept = Kept::begin(&journal, SLOTS, Size::Small, n, d, own.into())?;
        let (seals, texts) = (HashMap::new(), HashMap::new());
        Ok(Host { own, kept, journal, seals, texts, top: (0, GENESIS), offered: 0 })
    }

    /// Power is cut half way into a record, and the station in memory is gone. It is taken up again:
    /// fresh, with every input of its journal.
    fn cut(self, clock: u32) -> io::Result<Host> {
        let Host { own, kept, journal, .. } = &self;
        println!("tick {clock}: the power is cut at station {own}");
        let (sequence, next) = (kept.journal().records(), kept.journal().next());
        let mut slot = [0; SLOT];
        ffi::journal_put(&mut slot, sequence.into(), Input::Tick.kind().into(), &[]);
        let mut file = OpenOptions::new().write(true).open(journal)?;
        file.seek(SeekFrom::Start(u64::from(next) * SLOT as u64))?;
        file.write_all(&slot[..50])?;

        let Host { own, kept, journal, seals, texts, top, offered } = self;
        drop(kept);
        let (n, d) = (STATIONS.into(), DELAY.into());
        let (kept, report) = Kept::resume(&journal, Size::Small, n, d, own.into())?;
        let (records, torn) = (report.records, report.torn.len());
        println!(
            "tick {clock}: station {own} goes on from its journal: {records} records, {torn} torn"
        );
        Ok(Host { own, kept, journal, seals, texts, top, offered })
    }

    fn tick(&mut self, clock: u32) -> io::Result<Vec<Letter>> {
        let effects = self.kept.tick().map(Iterator::collect);
        self.done(clock, effects)
    }

    /// A letter: its message goes to the station only if every claim has a good seal, and a propose
    /// only if its name is that of its block.
    fn receive(&mut self, clock: u32, letter: Letter) -> io::Result<Vec<Letter>> {
        let claims = letter.message.claims();
        let is_good = |(claim, seal): (&Message, &Seal)| {
            claim.author().is_some_and(|author| self::seal(author, &claim.encode()) == *seal)
        };
        let sealed = claims.len() == letter.seals.len();
        if !sealed || !claims.iter().zip(&letter.seals).all(is_good) {
            println!("tick {clock}: station {} drops a message with a bad seal", self.own);
            return Ok(Vec::new());
        }
        if let Message::Propose { height, name, parent, .. } = letter.message {
            match letter.text {
                Some(text) if name == name_of(height, &parent, text) => {
                    self.texts.insert(name, text);
                }
                _ => return Ok(Vec::new()),
            }
        }
        for (claim, seal) in claims.iter().zip(letter.seals) {
            self.seals.insert(claim.encode(), seal);
        }
        let effects = self.kept.step(&letter.message.encode()).map(Iterator::collect);
        self.done(clock, effects)
    }

    /// Offers the next card, if this station leads and is ready for it.
    fn offer(&mut self, clock: u32) -> io::Result<Vec<Letter>> {
        let Some(text) = CARDS.get(self.offered) else { return Ok(Vec::new()) };
        if !self.kept.station().is_leader() {
            return Ok(Vec::new());
        }
        let (height, parent) = self.top;
        let name = name_of(height + 1, &parent, text);
        self.texts.insert(name, text);
        let effects = self.kept.offer(&name).map(Iterator::collect);
        self.offered += usize::from(effects.is_ok());
        self.done(clock, effects)
    }

    /// What every call ends with: its input is in the journal, and letters go out.
    fn done(
        &mut self,
        clock: u32,
        effects: Result<Vec<Effect>, Failure>,
    ) -> io::Result<Vec<Letter>> {
        let effects = match effects {
            Ok(effects) => effects,
            // The offer is made again after the next input. A bad message is dropped, and so is one that
            // is too far ahead: no sound station sends such.
            Err(Failure::Refused(
                Refusal::NotTaken | Refusal::Unreadable | Refusal::NotAllowed | Refusal::Ahead,
            )) => return Ok(Vec::new()),
            // The station is stopped, or the journal can't be written: somebody has to look.
            Err(failure) => return Err(failure.into()),
        };
        let own = self.own;
        let mut letters = Vec::new();
        for effect in effects {
            match effect {
                Effect::ToAll(message) => {
                    for to in (0..STATIONS).filter(|&to| to != own) {
                        letters.push(self.letter(clock, to, message));
                    }
                }
                Effect::ToOne { station, message } => {
                    letters.push(self.letter(clock, station, message));
                }
                Effect::Committed { height, name } => {
                    let text = self.texts.get(&name).unwrap_or(&"?");
                    println!("tick {clock}: station {own} commits {height}: {text}");
                }
            }
        }
        Ok(letters)
    }

    /// A message with the seals of its claims; the own claim is sealed here.
    fn letter(&mut self, clock: u32, to: u8, message: Message) -> Letter {
        for claim in message.claims().iter().filter(|claim| claim.author() == Some(self.own)) {
            let bytes = claim.encode();
            self.seals.insert(bytes.clone(), seal(self.own, &bytes));
        }
        let known = |claim: &Message| self.seals.get(&claim.encode()).copied().unwrap_or(0);
        let seals = message.claims().iter().map(known).collect();
        let text = match message {
            Message::NewView { height, name, author, .. } if author == self.own => {
                self.top = (height, name);
                None
            }
            Message::Propose { height, name, author, .. } => {
                if author == self.own {
                    self.top = (height, name);
                }
                self.texts.get(&name).copied()
            }
            _ => None,
        };
        Letter { due: clock + 1, to, message, seals, text }
    }
}

/// A vote in the name of station 0, by somebody who has not its key.
fn forged(due: u32) -> Letter {
    let message = Message::Vote { view: 1, height: 1, name: [7; 32], author: 0 };
    Letter { due, to: 2, message, seals: vec![0xbad], text: None }
}

fn main() -> io::Result<()> {
    let directory = std::env::args().nth(1).unwrap_or(".".into());
    let hosts = (0..STATIONS).map(|own| Host::new(own, Path::new(&directory)));
    let mut hosts = hosts.collect::<io::Result<Vec<Host>>>()?;
    let mut post: Vec<Letter> = vec![forged(9)];
    for clock in 1..=TICKS {
        for host in &mut hosts {
            post.extend(host.tick(clock)?);
        }
        let (due, later) = post.into_iter().partition(|letter| letter.due <= clock);
        post = later;
        for letter in due {
            let to = usize::from(letter.to);
            post.extend(hosts[to].receive(clock, letter)?);
        }
        for host in &mut hosts {
            post.extend(host.offer(clock)?);
        }
        if clock == 10 {
            let host = hosts.remove(2);
            hosts.insert(2, host.cut(clock)?);
        }
    }
    let log = hosts[0].kept.station().log();
    let alike = hosts.iter().all(|host| host.kept.station().log() == log);
    println!("{} entries in each log, {}", log.len(), if alike { "alike" } else { "not alike" });
    Ok(())
}
