//! 02's "Choosing between two reports".

use crate::settings::{Limits, Settings};
use crate::wire::Message;
use crate::words::Block;

/// Bytes of the kind's field, behind which the certificate part begins: it goes "from the height field
/// to the end".
const KIND: usize = 4;

/// "Hand back the certificate part of the one with the higher rank." The kind of a group is 0 with the
/// small limits and 4 with the large ones; with any other, or a bad n, nothing is allowed.
pub fn choose<'a>(kind: u64, n: u64, first: &'a [u8], second: &'a [u8]) -> &'a [u8] {
    match (report(kind, n, first), report(kind, n, second)) {
        // "Equal rank gives the first."
        (Some(one), Some(other)) if other.rank() > one.rank() => &second[KIND..],
        (Some(_), _) => &first[KIND..],
        (None, Some(_)) => &second[KIND..],
        // "if neither, an empty part of the first"
        (None, None) => &first[..0],
    }
}

/// The block that a readable and allowed status reports as certified. A message of another kind is no
/// report.
fn report(kind: u64, n: u64, message: &[u8]) -> Option<Block> {
    let limits = match kind {
        0 => Limits::SMALL,
        4 => Limits::LARGE,
        _ => return None,
    };
    // a status names no author, and is held against no delay
    let settings = Settings::new(limits, n, 1, 0).ok()?;
    match Message::read(message)? {
        read @ Message::Status { certificate } if read.is_allowed(&settings) => {
            Some(certificate.block)
        }
        _ => None,
    }
}
