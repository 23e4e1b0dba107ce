//! What docs/STORE.md calls well formed, by the method of the proved check: records hang on chains, which are made anew
//! for each call and then serve its searches.

use crate::bytes::{Name, eight, four, name, two, words};
use crate::settings::{CLOCK, Settings, block};
use station::Size;
use station::size::{BLAME, HEADER, NAME, OPENED, STATEMENT, TALLY};

pub type Statement = [u8; STATEMENT];
pub type Tally = [u8; TALLY];

/// How many chains there are of tallies, and of statements.
const TALLIED: usize = 2_048;
const STATED: usize = 512;

/// What a check begins to stir with.
fn salt(clock: u32) -> u64 {
    u64::from(clock) * 2_146_121_005 + 3_668_340_011_890_124_611
}

#[inline(always)]
fn stir(mix: u64, word: u64) -> u64 {
    let sum = mix.wrapping_add(word);
    mix.wrapping_add((sum & 0xffff_ffff) * (sum >> 32))
}

#[inline(always)]
fn mix_name(mix: u64, name: &Name) -> u64 {
    words(name).into_iter().fold(mix, stir)
}

#[inline(always)]
fn chain_of(mix: u64) -> usize {
    (mix >> 32) as usize
}

/// The chain of a block's tally at a clock.
pub fn chain(clock: u32, key: u64, name: &Name) -> usize {
    chain_of(mix_name(stir(salt(clock), key), name)) % TALLIED
}

/// Chains of a table's records: heads by chain, nexts by place, one more than the place that follows, 0 for none. A record
/// hangs in front of those that hang already.
struct Chains<const HEADS: usize, const ROOM: usize> {
    heads: [u16; HEADS],
    nexts: [u16; ROOM],
}

impl<const HEADS: usize, const ROOM: usize> Chains<HEADS, ROOM> {
    const EMPTY: Chains<HEADS, ROOM> = Chains { heads: [0; HEADS], nexts: [0; ROOM] };

    #[inline(always)]
    fn hang(&mut self, chain: usize, place: usize) {
        self.nexts[place] = self.heads[chain % HEADS];
        self.heads[chain % HEADS] = place as u16 + 1;
    }

    /// The first on a chain that is sought.
    #[inline(always)]
    fn find(&self, chain: usize, sought: impl Fn(usize) -> bool) -> Option<usize> {
        let mut next = self.heads[chain % HEADS];
        while next > 0 {
            let place = usize::from(next) - 1;
            if sought(place) {
                return Some(place);
            }
            next = self.nexts[place];
        }
        None
    }
}

/// Where the records of a checked store are.
pub(crate) struct Index {
    salt: u64,
    tallies: Chains<TALLIED, { Size::Large.tallies() }>,
    /// By block and link.
    statements: Chains<STATED, { Size::Large.statements() }>,
    /// By height, the first stored first.
    heights: Chains<STATED, { Size::Large.statements() }>,
    /// How many tallies each opened, one more than its number being its place.
    opened: [u16; 256],
    /// So many of the log's lowest names are each that of a first stored propose which links to the name below.
    reach: usize,
}

/// The block that a statement certifies: view and height, and name.
#[inline(always)]
pub fn certified(statement: &Statement) -> (u64, &Name) {
    let own = eight(statement, 0);
    match statement[40] {
        1 => (u64::from(four(statement, 72)) << 32 | own & 0xffff_ffff, name(statement, 8)),
        _ => (own - 1, name(statement, 44)),
    }
}

/// "Two are the same when all but the mask agree"; the own vote is none of the statement.
#[inline(always)]
fn same(one: &Statement, two: &Statement) -> bool {
    one[..42] == two[..42] && one[44..76] == two[44..76]
}

/// The searches.
impl Index {
    #[inline(always)]
    pub fn mix(&self, key: u64, name: &Name) -> u64 {
        mix_name(stir(self.salt, key), name)
    }

    /// The tally of a block, with its mix.
    #[inline(always)]
    pub fn tally(&self, tallies: &[Tally], mix: u64, key: u64, block: &Name) -> Option<usize> {
        self.tallies.find(chain_of(mix), |place| {
            let tally = &tallies[place];
            eight(tally, 0) == key && name(tally, 8) == block
        })
    }

    /// Whether a statement is stored, with its block's mix.
    #[inline(always)]
    pub fn has(&self, statements: &[Statement], mix: u64, statement: &Statement) -> bool {
        let chain = chain_of(mix_name(mix, name(statement, 44)));
        self.statements.find(chain, |place| same(&statements[place], statement)).is_some()
    }

    /// The first stored propose of a name and height.
    #[inline(always)]
    pub fn propose(&self, statements: &[Statement], height: u32, block: &Name) -> Option<usize> {
        self.heights.find(height as usize, |place| {
            let statement = &statements[place];
            four(statement, 4) == height && statement[40] == 2 && name(statement, 8) == block
        })
    }

    /// How many tallies an author opened by votes.
    pub fn opened(&self, author: u8) -> u16 {
        self.opened[usize::from(author) + 1]
    }

    pub fn reach(&self) -> usize {
        self.reach
    }
}

fn zero(s: &[u8]) -> bool {
    s.iter().fold(0, |any, byte| any | byte) == 0
}

/// A store's parts, each table with the records in use.
struct Look<'a> {
    settings: Settings,
    header: &'a [u8; HEADER],
    clock: u32,
    statements: &'a [Statement],
    tallies: &'a [Tally],
    blames: &'a [[u8; BLAME]],
    log: &'a [Name],
}

impl<'a> Look<'a> {
    /// The parts; none where a count is too great or something stands behind the records in use.
    fn of(size: Size, store: &'a [u8]) -> Option<Look<'a>> {
        let (header, rest) = store.split_first_chunk::<HEADER>()?;
        let (statements, rest) = rest.split_at(STATEMENT * size.statements());
        let (tallies, rest) = rest.split_at(TALLY * size.tallies());
        let (blames, log) = rest.split_at(BLAME * size.views() as usize);
        let used = |table: &'a [u8], bytes, at| {
            let (used, rest) = table.split_at_checked(bytes * usize::from(two(header, at)))?;
            zero(rest).then_some(used)
        };
        Some(Look {
            settings: Settings::of(size, header),
            header,
            clock: four(header, 16),
            statements: used(statements, STATEMENT, 62)?.as_chunks().0,
            tallies: used(tallies, TALLY, 64)?.as_chunks().0,
            blames: blames.as_chunks().0,
            log: used(log, NAME, 66)?.as_chunks().0,
        })
    }

    fn header(&self) -> bool {
        let (h, clock, settings) = (self.header, self.clock, &self.settings);
        let (phase, view, entry) = (four(h, 0), four(h, 8), four(h, 12));
        settings.good()
            && settings.has_view(view)
            && entry <= clock
            && clock <= CLOCK
            && (phase < 4 || (entry..=clock).contains(&(phase - 4)))
            && four(h, 20) < view
            && block(four(h, 24), name(h, 28))
            && settings.certificate(four(h, 20), four(h, 24), two(h, 60))
    }

    #[inline(always)]
    fn statement(&self, s: &Statement) -> bool {
        let (view, height, mask, settings) = (four(s, 0), four(s, 4), two(s, 42), &self.settings);
        let said = match s[40] {
            1 => {
                let certificate_view = four(s, 72);
                (eight(s, 44) | eight(s, 52) | eight(s, 60) == 0)
                    && four(s, 68) == 0
                    && certificate_view < view
                    && settings.certificate(certificate_view, height, mask)
            }
            2 => height >= 1 && block(height - 1, name(s, 44)) && settings.quorum(mask),
            _ => false,
        };
        said && settings.has_view(view)
            && block(height, name(s, 8))
            && s[41] == settings.leader(view)
            && four(s, 76) <= self.clock + 1
    }

    #[inline(always)]
    fn tally(&self, t: &Tally) -> bool {
        let (mask, opener, reached) = (two(t, 40), t[42], four(t, 43));
        self.settings.has_view(four(t, 0))
            && block(four(t, 4), name(t, 8))
            && self.settings.has_stations(mask)
            && (opener == 0
                || u32::from(opener) <= self.settings.n && mask >> (opener - 1) & 1 == 1)
            && self.settings.full(mask) == (reached > 0)
            && reached <= self.clock + 1
    }
}

impl Index {
    #[inline]
    pub fn new() -> Index {
        Index {
            salt: 0,
            tallies: Chains::EMPTY,
            statements: Chains::EMPTY,
            heights: Chains::EMPTY,
            opened: [0; 256],
            reach: 0,
        }
    }

    /// Whether a store of this size is well formed; then this has its records.
    pub fn check(&mut self, size: Size, store: &[u8]) -> bool {
        let Some(look) = Look::of(size, store) else { return false };
        self.salt = salt(look.clock);
        look.header()
            && look.blames.iter().all(|mask| look.settings.has_stations(two(mask, 0)))
            && self.tallies(&look)
            && self.statements(&look)
            && self.log(&look)
    }

    /// Each tally good, no two of one block, and no author with more than may be.
    fn tallies(&mut self, look: &Look) -> bool {
        for (place, tally) in look.tallies.iter().enumerate() {
            let (key, block) = (eight(tally, 0), name(tally, 8));
            let mix = self.mix(key, block);
            if !look.tally(tally) || self.tally(look.tallies, mix, key, block).is_some() {
                return false;
            }
            self.tallies.hang(chain_of(mix), place);
            self.opened[usize::from(tally[42])] += 1;
        }
        self.opened[1..].iter().all(|&count| count <= OPENED)
    }

    /// Each statement good, its tallies there, and no two the same.
    fn statements(&mut self, look: &Look) -> bool {
        for (place, statement) in look.statements.iter().enumerate().rev() {
            if !look.statement(statement) {
                return false;
            }
            let (own, block) = (eight(statement, 0), name(statement, 8));
            let mix = self.mix(own, block);
            let (key, certified) = certified(statement);
            let tallied = self.tally(look.tallies, mix, own, block).is_some()
                && (key >> 32 == 0
                    || self
                        .tally(look.tallies, self.mix(key, certified), key, certified)
                        .is_some());
            if !tallied || self.has(look.statements, mix, statement) {
                return false;
            }
            self.statements.hang(chain_of(mix_name(mix, name(statement, 44))), place);
            self.heights.hang(four(statement, 4) as usize, place);
        }
        true
    }

    /// Each logged name that of a stored propose whose parent is the name below.
    fn log(&mut self, look: &Look) -> bool {
        let mut below = &[0; NAME];
        for (place, logged) in look.log.iter().enumerate() {
            let height = place as u32 + 1;
            let Some(first) = self.propose(look.statements, height, logged) else { return false };
            if name(&look.statements[first], 44) == below {
                self.reach += usize::from(self.reach == place);
            } else {
                let linked = |place: usize| {
                    let s = &look.statements[place];
                    four(s, 4) == height
                        && s[40] == 2
                        && name(s, 8) == logged
                        && name(s, 44) == below
                };
                if self.heights.find(height as usize, linked).is_none() {
                    return false;
                }
            }
            below = logged;
        }
        true
    }
}

/// What docs/STORE.md calls well formed.
pub fn well_formed(size: Size, store: &[u8]) -> bool {
    Index::new().check(size, store)
}
