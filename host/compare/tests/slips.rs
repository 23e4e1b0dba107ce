//! Both programs judge the same slips alike, and write the same ones.

use programs::{Program, Proved, Second};
use second::random::Random;
use station::{GENESIS, Message, Name, Size, ffi};

fn entry(message: Message) -> Vec<u8> {
    [vec![0x41, 0, 97], message.encode()].concat()
}

/// A slip of a few entries, mostly good, often with one thing wrong.
fn slip(random: &mut Random, n: u64) -> Vec<u8> {
    let height = random.pick(&[0, 1, 1, 2, 3, 4, 5, 9]);
    let name = |height: u32| -> Name { if height == 0 { GENESIS } else { [height as u8; 32] } };
    let quorum = (1u32 << (n / 2 + 1)) as u16 - 1;
    let wrong = random.place(3 * height as usize + 4);
    let mut bytes = vec![0x40, 0, 32];
    bytes.extend(name(if wrong == 0 { height + 1 } else { height }));
    for (place, high) in (1..=height).rev().enumerate() {
        let here = place == wrong / 3;
        let kind = if here { random.below(9) } else { 99 };
        let view =
            random.pick(&[1, 2, 3, 32, if here { 33 } else { 4 }, if here { 257 } else { 5 }]);
        let message = Message::Propose {
            view,
            height: if kind == 0 { random.pick(&[0, high + 1, 65_536]) } else { high },
            name: name(if kind == 1 { high + 1 } else { high }),
            parent: name(if kind == 2 { high } else { high - 1 }),
            mask: match kind {
                3 => quorum >> 1,
                4 => 1 << n | quorum,
                _ => quorum,
            },
            author: (u64::from(view) % n.max(1)) as u8 + u8::from(kind == 5),
        };
        let mut field = entry(message);
        match kind {
            6 => field[0] = 0x42,
            7 => field[4 + random.place(90)] ^= 1 << random.below(8),
            8 => field.truncate(random.place(100)),
            _ => {}
        }
        bytes.extend(field);
    }
    match random.below(8) {
        0 => bytes.truncate(random.place(bytes.len())),
        1 => bytes.push(0x41),
        2 => {
            let at = random.place(bytes.len());
            bytes[at] ^= 1 << random.below(8);
        }
        _ => {}
    }
    bytes
}

#[test]
fn both_judge_alike() {
    let mut random = Random::new(6);
    let (mut accepted, mut places, mut settings) = (0u32, [0u32; 6], 0u32);
    for _ in 0..200_000 {
        let kind = random.pick(&[0, 0, 0, 4, 4, 1, 2]);
        let n = random.pick(&[3, 3, 3, 5, 7, 15, 4, 17]);
        let slip = slip(&mut random, n.clamp(3, 15));
        let proved = ffi::slip_check(kind, n, &slip);
        assert_eq!(proved, second::slip::check(kind, n, &slip), "{kind} {n} {slip:02x?}");
        match proved >> 32 {
            0 => accepted += 1,
            15 => places[(proved as u32 as usize).min(5)] += 1,
            _ => settings += 1,
        }
    }
    assert!(accepted > 10_000 && settings > 10_000, "{accepted} {settings}");
    assert!(places.iter().all(|count| *count > 500), "{places:?}");
}

/// A slip cut after any byte is bad where the cut is.
#[test]
fn cut_after_every_byte() {
    let mut bytes = vec![0x40, 0, 32];
    bytes.extend([128; 32]);
    for high in (1..=128u32).rev() {
        let parent = if high == 1 { GENESIS } else { [high as u8 - 1; 32] };
        bytes.extend(entry(Message::Propose {
            view: 1,
            height: high,
            name: [high as u8; 32],
            parent,
            mask: 3,
            author: 1,
        }));
    }
    assert_eq!(ffi::slip_check(0, 3, &bytes), 128);
    for length in 0..bytes.len() {
        let place = length.saturating_sub(35) / 100;
        assert_eq!(ffi::slip_check(0, 3, &bytes[..length]), (15 << 32) + place as u64, "{length}");
        assert_eq!(second::slip::check(0, 3, &bytes[..length]), (15 << 32) + place as u64);
    }
}

/// A chain of blocks with names of both views, until the log has some; then every name's slip.
fn written(size: Size, seed: u64) -> usize {
    let mut random = Random::new(seed);
    let mut proved = Proved::fresh(size, 3, 1, 2).expect("good settings");
    let mut second = Second::fresh(size, 3, 1, 2).expect("good settings");
    let mut names = vec![GENESIS];
    for height in 1..=random.pick(&[1, 2, 5, 20, 60]) {
        let name: Name = std::array::from_fn(|_| random.below(256) as u8);
        let parent = *names.last().expect("genesis");
        // sometimes another one of that name first, which the log passes over
        if random.below(4) == 0 {
            let other = Message::Propose {
                view: 2,
                height,
                name,
                parent: if height == 1 { GENESIS } else { [9; 32] },
                mask: 3,
                author: 2,
            };
            assert_eq!(proved.step(&other.encode()).number, second.step(&other.encode()).number);
        }
        let message =
            Message::Propose { view: 1, height, name, parent, mask: 3, author: 1 }.encode();
        assert_eq!(proved.step(&message).number, second.step(&message).number);
        for _ in 0..random.below(3) {
            assert_eq!(proved.tick().number, second.tick().number);
        }
        names.push(name);
    }
    for _ in 0..4 {
        assert_eq!(proved.tick().number, second.tick().number);
    }
    let log = proved.log();
    names.push([7; 32]);
    for name in &names {
        let plain = second.station().slip(second::Name::from_bytes(*name));
        let slip = proved.station().slip(name);
        assert_eq!(slip.as_ref().ok(), plain.as_ref());
        let height = log.iter().position(|logged| logged == name);
        assert_eq!(slip.is_ok(), height.is_some());
        if let (Ok(slip), Some(height)) = (slip, height) {
            assert_eq!(ffi::slip_check(size.kind(), 3, &slip), height as u64 + 1);
        }
    }
    log.len()
}

#[test]
fn both_write_alike() {
    let logged: usize = (0..200).map(|seed| written(Size::ALL[seed as usize % 2], seed)).sum();
    assert!(logged > 500, "{logged}");
}
