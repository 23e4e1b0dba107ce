//! A link that bundles: letters to one station travel in relay envelopes, by the proved calls.

use crate::group::Letter;
use station::{ENVELOPE, Envelope, Message, envelope};

/// So many messages of any kind fit an envelope: an item has 100 bytes at most.
const BUNDLE: usize = (ENVELOPE - 3) / 100;

/// The letters as they come out of the envelopes that they were put into, in their order, and how many
/// envelopes there were.
///
/// # Panics
/// If what comes out isn't as many messages as went in.
pub fn carried(mut letters: Vec<Letter>, stations: u8) -> (Vec<Letter>, u64) {
    let mut envelopes = 0;
    for to in 0..stations {
        let mut bundle: Vec<_> = letters.iter_mut().filter(|letter| letter.to == to).collect();
        for letters in bundle.chunks_mut(BUNDLE) {
            let sent: Vec<_> = letters.iter().map(|letter| letter.message.encode()).collect();
            let bytes = envelope(&sent).expect("messages that fit an envelope");
            let read = Envelope::read(&bytes).expect("what was written reads back");
            assert_eq!(read.messages().len(), letters.len());
            for (letter, message) in letters.iter_mut().zip(read.messages()) {
                letter.message = Message::decode(message).expect("a readable message");
            }
            envelopes += 1;
        }
    }
    (letters, envelopes)
}
