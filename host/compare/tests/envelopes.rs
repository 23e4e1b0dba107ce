//! Both programs list the same places of the same envelopes, and write the same ones.

use second::envelope::{self, Place};
use second::random::Random;
use station::{ENVELOPE, Message, ffi};

const LIST: usize = 4096;
const FILL: u8 = 0x5a;

/// A message of any kind, now and then damaged.
fn message(random: &mut Random) -> Vec<u8> {
    let (view, height, name) =
        (random.below(40) as u32, random.below(9) as u32, [random.below(4) as u8; 32]);
    let (mask, author) = (random.below(8) as u16, random.below(3) as u8);
    let mut bytes = match random.below(6) {
        0 => Message::NewView { view, height, name, certificate_view: 0, mask, author },
        1 => Message::Propose { view, height, name, parent: name, mask, author },
        2 => Message::Vote { view, height, name, author },
        3 => Message::Status { height, name, certificate_view: view, mask },
        4 => Message::BlameSet { view, mask },
        _ => Message::Blame { view, author },
    }
    .encode();
    if random.one_in(400) {
        damage(random, &mut bytes);
    }
    bytes
}

/// One byte more, less or changed.
fn damage(random: &mut Random, bytes: &mut Vec<u8>) {
    let at = random.place(bytes.len() + 1);
    match random.below(3) {
        0 => bytes.insert(at, random.below(256) as u8),
        1 => bytes.truncate(at),
        _ => {
            if let Some(byte) = bytes.get_mut(at) {
                *byte ^= 1 << random.below(8);
            }
        }
    }
}

fn field(tag: u8, value: &[u8]) -> Vec<u8> {
    [&[tag][..], &(value.len() as u16).to_be_bytes(), value].concat()
}

/// Items: messages, and envelopes to a depth, mostly one that may be read.
fn items(random: &mut Random, depth: u64) -> Vec<u8> {
    let count = random.pick(&[0, 1, 2, 3, 3, 4, 40]);
    (0..count)
        .flat_map(|_| match depth > 1 && random.one_in(3) {
            true => {
                let inside = items(random, depth - 1);
                field(0x30, &inside)
            }
            false => field(0x31, &message(random)),
        })
        .collect()
}

/// The list of some places.
fn list(places: &[Place]) -> Vec<u8> {
    places
        .iter()
        .flat_map(|&(at, size)| [at, size])
        .flat_map(|number| (number as u32).to_be_bytes())
        .collect()
}

#[test]
fn both_read_alike() {
    let mut random = Random::new(8);
    let (mut good, mut bad, mut listed) = (0u32, 0u32, 0usize);
    for _ in 0..60_000 {
        let depth = random.pick(&[1, 2, 3, 4, 4, 5]);
        let mut bytes = field(0x30, &items(&mut random, depth));
        if random.one_in(4) {
            damage(&mut random, &mut bytes);
        }
        let mut proved = [FILL; LIST];
        let answer = ffi::envelope_read(&bytes, &mut proved);
        let mut plain = [FILL; LIST];
        let expected = match envelope::read(&bytes) {
            Some(places) => {
                plain[..8 * places.len()].copy_from_slice(&list(&places));
                listed += places.len();
                good += 1;
                places.len() as u64
            }
            None => {
                bad += 1;
                14 << 32
            }
        };
        assert_eq!(answer, expected, "{bytes:02x?}");
        assert!(proved == plain, "{bytes:02x?}");
    }
    assert!(good > 10_000 && bad > 10_000 && listed > 100_000, "{good} {bad} {listed}");
}

#[test]
fn both_write_alike() {
    let mut random = Random::new(9);
    let (mut good, mut bad) = (0u32, 0u32);
    for _ in 0..60_000 {
        // messages in memory, and a list of some of them
        let (mut bytes, mut known) = (Vec::new(), Vec::new());
        for _ in 0..1 + random.below(6) {
            let message = message(&mut random);
            known.push((bytes.len(), message.len()));
            bytes.extend(message);
        }
        let count = random.pick(&[0, 1, 2, 5, 20, 80, 120, 200]);
        let mut places: Vec<Place> = (0..count).map(|_| random.pick(&known)).collect();
        if random.one_in(3) && !places.is_empty() {
            let at = random.place(places.len());
            places[at] = match random.below(4) {
                0 => (places[at].0 + 1, places[at].1),
                1 => (places[at].0, places[at].1.saturating_sub(1)),
                2 => (bytes.len(), random.pick(&[0, 1, 15])),
                _ => (0xffff_ffff, 0xffff_ffff),
            };
        }
        let mut proved = [FILL; ENVELOPE];
        let answer = ffi::envelope_write(&bytes, &list(&places), &mut proved);
        let mut plain = [FILL; ENVELOPE];
        let expected = match envelope::write(&bytes, &places) {
            Some(envelope) => {
                plain[..envelope.len()].copy_from_slice(&envelope);
                good += 1;
                envelope.len() as u64
            }
            None => {
                bad += 1;
                14 << 32
            }
        };
        assert_eq!(answer, expected, "{places:?}");
        assert!(proved == plain, "{places:?}");
    }
    assert!(good > 10_000 && bad > 10_000, "{good} {bad}");
}
