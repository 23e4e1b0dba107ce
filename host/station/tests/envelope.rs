//! The typed face of relay envelopes.

use station::{ENVELOPE, Envelope, Message, Refusal, envelope};

fn blame(view: u32) -> Vec<u8> {
    Message::Blame { view, author: 0 }.encode()
}

/// A field of a tag.
fn field(tag: u8, value: &[u8]) -> Vec<u8> {
    let mut field = vec![tag];
    field.extend((value.len() as u16).to_be_bytes());
    field.extend(value);
    field
}

#[test]
fn messages_are_parts_of_the_envelope() {
    let messages: Vec<_> = (1..=20).map(blame).collect();
    let bytes = envelope(&messages).unwrap();
    // the messages outlive what was read
    let read: Vec<&[u8]> = Envelope::read(&bytes).unwrap().messages().collect();
    assert_eq!(read, messages);
    for (place, message) in read.iter().enumerate() {
        assert_eq!(message.as_ptr(), bytes[6 + 18 * place..].as_ptr());
    }
    assert_eq!(Envelope::read(&bytes).unwrap().messages().len(), 20);
}

#[test]
fn inner_envelopes_are_read_in_their_place() {
    let [first, second, third] = [1, 2, 3].map(|view| field(0x31, &blame(view)));
    let inner = field(0x30, &field(0x30, &field(0x30, &second)));
    let bytes = field(0x30, &[first.clone(), inner.clone(), third].concat());
    let read = Envelope::read(&bytes).unwrap();
    assert!(read.messages().eq([1, 2, 3].map(blame).iter()));
    let deeper = field(0x30, &field(0x30, &inner));
    assert_eq!(Envelope::read(&deeper).unwrap_err(), Refusal::Envelope);
    assert_eq!(Envelope::read(&first).unwrap_err(), Refusal::Envelope);
}

#[test]
fn the_longest_is_taken_and_no_longer_one() {
    let mut messages = vec![blame(1); 437];
    messages.extend(vec![Message::BlameSet { view: 1, mask: 3 }.encode(); 17]);
    let bytes = envelope(&messages).unwrap();
    assert_eq!(bytes.len(), ENVELOPE);
    assert!(Envelope::read(&bytes).unwrap().messages().eq(&messages));
    messages.push(blame(1));
    assert_eq!(envelope(&messages), Err(Refusal::Envelope));
    assert_eq!(envelope(&[&blame(1)[1..]]), Err(Refusal::Envelope));
    assert_eq!(envelope::<Vec<u8>>(&[]).unwrap(), [0x30, 0, 0]);
}
