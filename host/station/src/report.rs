//! Two reports of a new leader's host, and the one to build on.

use crate::ffi;
use crate::size::Size;

/// Where the certificate part of a status begins: behind the field of its kind.
const PART: usize = 4;

/// The certificate part of the status message with the higher rank, from its height field to its end,
/// as a part of one of the two; no byte is copied. Rank is view, then height, and equal rank gives the
/// first. If only one is readable and allowed in a group of `n` stations, its part; if neither, an
/// empty part of the first.
///
/// ```
/// use station::{Message, Size, choose};
///
/// let report = |certificate_view, height| {
///     let name = [7; 32];
///     Message::Status { height, name, certificate_view, mask: 0b011 }.encode()
/// };
/// let (first, second) = (report(1, 9), report(2, 1));
/// assert_eq!(choose(Size::Small, 3, &first, &second), &second[4..]);
/// assert_eq!(choose(Size::Small, 3, &first, &[]), &first[4..]);
/// assert!(choose(Size::Small, 3, &[], &[]).is_empty());
/// ```
pub fn choose<'a>(size: Size, n: u64, first: &'a [u8], second: &'a [u8]) -> &'a [u8] {
    match ffi::choose(size.kind(), n, first, second) {
        1 => &first[PART..],
        2 => &second[PART..],
        _ => &first[..0],
    }
}
