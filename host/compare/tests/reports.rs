//! Both programs choose the same part of the same report.

use second::random::Random;
use station::{Message, Name, Size};

/// A report, often of a certificate like the others', sometimes damaged, of another kind or nothing.
fn report(random: &mut Random) -> Vec<u8> {
    let height = random.pick(&[0, 1, 1, 1, 2, 2, 2, 3, 65_535, 65_536]);
    let name: Name = if height == 0 { [0; 32] } else { [random.below(8) as u8; 32] };
    let certificate_view = random.pick(&[0, 1, 1, 1, 2, 2, 2, 3, 32, 33, 256, 257]);
    let mask = random.pick(&[0, 1, 3, 5, 7, 7, 7, 7, 0x7f, 0x7fff, 0xffff]);
    let message = match random.below(12) {
        0 => Message::Vote { view: 1, height, name, author: 0 },
        1 => Message::Blame { view: 1, author: 0 },
        2 => Message::BlameSet { view: 1, mask },
        _ => Message::Status { height, name, certificate_view, mask },
    };
    let mut bytes = message.encode();
    match random.below(16) {
        0 => bytes.truncate(random.place(bytes.len())),
        1 => bytes.push(0),
        2 => {
            let at = random.place(bytes.len());
            bytes[at] ^= 1 << random.below(8);
        }
        _ => {}
    }
    bytes
}

#[test]
fn both_choose_alike() {
    let mut random = Random::new(10);
    let mut taken = [0u32; 3];
    for _ in 0..200_000 {
        let size = random.pick(&Size::ALL);
        let n = random.pick(&[3, 3, 3, 5, 5, 5, 7, 15, 0, 4, 17]);
        let (first, second) = (report(&mut random), report(&mut random));
        let proved = station::choose(size, n, &first, &second);
        let plain = second::choose(size.kind(), n, &first, &second);
        let told = || format!("{size:?} {n} {first:02x?} {second:02x?}");
        assert_eq!((proved.as_ptr(), proved.len()), (plain.as_ptr(), plain.len()), "{}", told());
        let of_first = first.as_ptr_range().contains(&proved.as_ptr());
        taken[if proved.is_empty() {
            0
        } else if of_first {
            1
        } else {
            2
        }] += 1;
    }
    assert!(taken.iter().all(|&count| count > 10_000), "{taken:?}");
}

#[test]
fn no_other_kind_is_good() {
    let report =
        Message::Status { height: 1, name: [7; 32], certificate_view: 1, mask: 3 }.encode();
    for kind in [1, 2, 3, 5, 6, 7, 8, 256, 1 << 32, u64::MAX] {
        assert_eq!(station::ffi::choose(kind, 3, &report, &report), 0);
        assert!(second::choose(kind, 3, &report, &report).is_empty());
    }
}
