//! What is shown on a wall display.

use crate::message::Name;

/// A tag, a length of two bytes, then height, name and ticks left.
const FIELD: usize = 3 + 4 + 32 + 8;

/// A propose that the station voted for in the view that it is in, and that is not in its log yet.
#[derive(Clone, Copy, Debug, PartialEq, Eq, Hash)]
pub struct Shown {
    pub height: u32,
    pub name: Name,
    /// How many ticks are left until its commit is due. 0 is due on the tick just given, below 0 is
    /// overdue: both only where an ancestor was not stored at the last tick.
    pub ticks_left: i64,
}

/// The fields that a station wrote for its display.
pub(crate) fn read(bytes: &[u8]) -> Vec<Shown> {
    bytes.chunks_exact(FIELD).map(shown).collect()
}

fn shown(field: &[u8]) -> Shown {
    let part = |from: usize, to: usize| &field[from..to];
    Shown {
        height: u32::from_be_bytes(part(3, 7).try_into().expect("4 bytes")),
        name: part(7, 39).try_into().expect("32 bytes"),
        ticks_left: i64::from_be_bytes(part(39, 47).try_into().expect("8 bytes")),
    }
}

#[cfg(test)]
mod tests {
    use super::*;

    #[test]
    fn what_is_shown_reads_back() {
        let shown = |height, ticks_left| Shown { height, name: [7; 32], ticks_left };
        let list = [shown(2, -1), shown(1, 0), shown(0x10203, 1), shown(4, i64::MIN)];
        let mut bytes = Vec::new();
        for Shown { height, name, ticks_left } in list {
            bytes.extend([0x13, 0, 44]);
            bytes.extend(height.to_be_bytes());
            bytes.extend(name);
            bytes.extend(ticks_left.to_be_bytes());
        }
        assert_eq!(read(&bytes), list);
        assert_eq!(read(&[]), []);
    }
}
