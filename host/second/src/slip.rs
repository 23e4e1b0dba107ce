//! 02's "Slips for the thank-you cards".

use crate::settings::{Limits, Settings};
use crate::station::Station;
use crate::wire::Message;
use crate::words::{Made, Name, Statement};

/// Tag and length of the name's field, and of an entry's.
const NAME: [u8; 3] = [0x40, 0, 32];
const ENTRY: [u8; 3] = [0x41, 0, 97];

/// Refusals 10 and 15, as a host is told of them.
const SETTINGS: u64 = 10 << 32;
const SLIP: u64 = 15 << 32;

/// How many entries a slip has; or "refused with number 15 and the first bad place, counted from the
/// top". Refusal 10 for a kind or an n that isn't good.
pub fn check(kind: u64, n: u64, slip: &[u8]) -> u64 {
    let limits = match kind {
        0 => Limits::SMALL,
        4 => Limits::LARGE,
        _ => return SETTINGS,
    };
    let Ok(settings) = Settings::new(limits, n, 1, 0) else {
        return SETTINGS;
    };
    match places(&settings, slip) {
        Ok(entries) => entries,
        Err(place) => SLIP + place,
    }
}

/// The number of entries, or the first bad place.
fn places(settings: &Settings, slip: &[u8]) -> Result<u64, u64> {
    // "a bad name counts there": at the top
    let (name, mut rest) = field::<32>(NAME, slip).ok_or(0u64)?;
    let mut wanted = Name::from_bytes(*name);
    let mut height = None;
    let mut place = 0;
    // "heights fall by one", "from that block down to height 1"
    while height != Some(0) {
        let (message, behind) = field::<97>(ENTRY, rest).ok_or(place)?;
        let entry = propose(settings, message).ok_or(place)?;
        let Made::Propose { parent } = entry.made else { return Err(place) };
        let high = entry.block.height;
        if entry.block.name != wanted || height.is_some_and(|wanted| wanted != high) {
            return Err(place);
        }
        wanted = parent;
        height = Some(high - 1);
        rest = behind;
        place += 1;
    }
    // "extra"
    if rest.is_empty() {
        Ok(place)
    } else {
        Err(place)
    }
}

/// The value of a field with this head, and what stands behind it.
fn field<const N: usize>(head: [u8; 3], bytes: &[u8]) -> Option<(&[u8; N], &[u8])> {
    bytes.strip_prefix(&head)?.split_first_chunk()
}

/// "Each propose is allowed"; its mask then certifies the block below it.
fn propose(settings: &Settings, message: &[u8]) -> Option<Statement> {
    match Message::read(message)? {
        read @ Message::Statement { statement, .. } if read.is_allowed(settings) => {
            (!statement.is_new_view()).then_some(statement)
        }
        _ => None,
    }
}

impl Station {
    /// "Writes the slip for any logged block": none for a name that isn't logged.
    pub fn slip(&self, name: Name) -> Option<Vec<u8>> {
        let names: Vec<Name> = self.log().collect();
        // of a name logged at two heights the lower
        let top = names.iter().position(|logged| *logged == name)?;
        let mut out = NAME.to_vec();
        out.extend(name.to_bytes());
        for place in (0..=top).rev() {
            let parent = if place == 0 { Name::ZERO } else { names[place - 1] };
            let is_entry = |statement: &&Statement| {
                statement.block.height as usize == place + 1
                    && statement.block.name == names[place]
                    && statement.parent() == Some(parent)
            };
            let statement = *self.statements().iter().find(is_entry)?;
            out.extend(ENTRY);
            let author = self.settings().leader(statement.block.view);
            Message::Statement { statement, author }.write(&mut out);
        }
        Some(out)
    }
}
