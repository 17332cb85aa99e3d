//! Change request No. 1 and the reader of any field, on the model itself: bytes worked out from the
//! words, each refusal, and the orders.

use second::control::{Wire, LAST_FIELD};
use second::driver::worked::bytes;
use second::field::{Content, Field};
use second::firmware::{write_apply, write_segment, Apply, Component, Information, Segment};
use second::refusal::{Broken, Refusal};
use second::rng::Rng;

const DIGITS: &[u8; 64] = b"0123456789abcdefABCDEF0123456789abcdefABCDEF0123456789abcdefABCD";

/// A segment's message: these bytes, then the signature as field 4.
fn signed(text: &str) -> Vec<u8> {
    [&bytes(text)[..], &[0x22, 0x40], DIGITS].concat()
}

/// The number that goes out, with the field after 50.
fn told(broken: Broken) -> (u64, Option<u64>) {
    (broken.refusal.number(), broken.field)
}

fn segment(message: &[u8]) -> Result<Segment, (u64, Option<u64>)> {
    Segment::read(message).map_err(told)
}

fn segment_refusal(text: &str) -> (u64, Option<u64>) {
    segment(&bytes(text)).expect_err("a refusal")
}

/// Writes a segment into an output of this size.
fn segment_written(
    name: &[u8],
    offset: u32,
    size: u32,
    signature: &[u8],
    room: usize,
) -> Result<Vec<u8>, (u64, Option<u64>)> {
    let mut output = vec![0xCC; room];
    match write_segment(name, offset, size, signature, &mut output) {
        Ok(written) => {
            assert!(output[written..].iter().all(|&byte| byte == 0xCC));
            output.truncate(written);
            Ok(output)
        }
        Err(broken) => {
            assert!(output.iter().all(|&byte| byte == 0xCC));
            Err(told(broken))
        }
    }
}

fn apply(text: &str) -> Result<Apply, u64> {
    Apply::read(&bytes(text)).map_err(|broken| broken.refusal.number())
}

fn apply_refusal(text: &str) -> u64 {
    apply(text).expect_err("a refusal")
}

fn apply_written(texts: &[u8], apply: &Apply, room: usize) -> Result<Vec<u8>, u64> {
    let mut output = vec![0xCC; room];
    match write_apply(texts, apply, &mut output) {
        Ok(written) => {
            assert!(output[written..].iter().all(|&byte| byte == 0xCC));
            output.truncate(written);
            Ok(output)
        }
        Err(broken) => {
            assert!(output.iter().all(|&byte| byte == 0xCC));
            Err(broken.refusal.number())
        }
    }
}

/// A message in which the bytes stand as firmware_information.
fn informed(inner: &str) -> String {
    let length = bytes(inner).len();
    format!("0A {length:02X} {inner}")
}

/// A message in which the bytes stand as the only component.
fn component(inner: &str) -> String {
    let length = bytes(inner).len();
    informed(&format!("1A {length:02X} {inner}"))
}

#[test]
fn a_segment_by_hand() {
    assert_eq!(
        segment_written(b"", 0, 7, DIGITS, 68),
        Ok(signed("18 07")),
        "no name, offset 0"
    );
    let read = segment(&signed("18 07")).unwrap();
    assert_eq!(read.component_name, 0..0);
    assert_eq!((read.component_offset, read.segment_size), (0, 7));
    assert_eq!(read.segment_signature, 4..68);
    assert_eq!(segment_refusal("10 01"), (50, Some(2)));
    assert_eq!(segment_refusal(""), (50, Some(4)));
    assert_eq!(segment_refusal("10 01 22"), (30, None));
    assert_eq!(segment_refusal("10 01 08 00"), (33, None));
}

#[test]
fn the_last_offset_counts_and_its_low_32_bits() {
    let read = segment(&signed("10 01 10 80 80 80 80 10")).unwrap();
    assert_eq!(read.component_offset, 0);
    assert_eq!(
        segment(&signed("10 00 10 81 80 80 80 10")),
        Err((50, Some(2)))
    );
    let size = |text: &str| segment(&signed(text)).unwrap().segment_size;
    assert_eq!(size("18 FF FF FF FF FF FF FF FF FF 01"), u32::MAX);
    assert_eq!(size("18 05 18 80 80 80 80 30"), 0);
    assert_eq!(size("18 81 80 80 80 80 80 80 80 80 00"), 1);
}

#[test]
fn a_signature_is_64_digits_of_either_case() {
    for place in 0..64 {
        for byte in 0..=255 {
            let mut signature = *DIGITS;
            signature[place] = byte;
            let digit = b"0123456789abcdefABCDEF".contains(&byte);
            let message = [&[0x22, 0x40], &signature[..]].concat();
            let written = segment_written(b"", 0, 0, &signature, 66);
            if digit {
                assert_eq!(segment(&message).unwrap().segment_signature, 2..66);
                assert_eq!(written, Ok(message));
            } else {
                // A byte above ASCII is no sequence by itself (No. 3).
                let number = if byte < 0x80 { 50 } else { 36 };
                assert_eq!(segment(&message), Err((number, Some(4))));
                assert_eq!(written, Err((number, Some(4))));
            }
        }
    }
    for size in [0, 1, 63, 65, 127, 128] {
        let signature = vec![b'7'; size];
        let written = segment_written(b"", 0, 0, &signature, 200);
        assert_eq!(written, Err((50, Some(4))), "{size} digits");
    }
    // The last one counts: a short one before it breaks nothing, one after it does.
    assert!(segment(&signed("22 01 37")).is_ok());
    let message = [signed(""), bytes("22 00")].concat();
    assert_eq!(segment(&message), Err((50, Some(4))));
}

#[test]
fn segments_refused() {
    for (text, number) in [
        ("80", 30),
        ("80 80 80 80 80 80 80 80 80 02", 31),
        ("00 00", 32),
        ("0B", 32),
        ("80 80 80 80 10 00", 32),
        // Each field with each other wire type, before its value is looked at.
        ("08", 33),
        ("09", 33),
        ("0D", 33),
        ("12", 33),
        ("11", 33),
        ("15", 33),
        ("1A", 33),
        ("19", 33),
        ("1D", 33),
        ("20", 33),
        ("21", 33),
        ("25", 33),
        ("0A", 30),
        ("0A 01", 30),
        ("10 80", 30),
        ("10 FF FF FF FF FF FF FF FF FF 02", 31),
        ("22 40 30", 30),
        ("2A 01", 30),
    ] {
        assert_eq!(segment_refusal(text), (number, None), "{text}");
        // All others come before 50, wherever they stand.
        let behind = [bytes("10 01"), bytes(text)].concat();
        assert_eq!(segment(&behind), Err((number, None)), "10 01 {text}");
    }
    // Fields that it does not know are skipped.
    let skipped = "2A 01 00 30 07 39 00 00 00 00 00 00 00 00 45 00 00 00 00";
    assert!(segment(&signed(skipped)).is_ok());
    // Field 2 is told where field 4 breaks too.
    assert_eq!(segment_refusal("22 01 78 10 01"), (50, Some(2)));
}

#[test]
fn segments_written() {
    let message = [bytes("0A 01 41 18 80 01"), signed("")].concat();
    assert_eq!(
        segment_written(b"A", 0, 128, DIGITS, 72),
        Ok(message.clone())
    );
    let read = segment(&message).unwrap();
    assert_eq!(read.component_name, 2..3);
    assert_eq!(read.segment_signature, 8..72);
    // 50 before 14; field 2 before field 4.
    assert_eq!(segment_written(b"A", 0, 128, DIGITS, 71), Err((14, None)));
    assert_eq!(segment_written(b"A", 1, 1, b"", 0), Err((50, Some(2))));
    assert_eq!(segment_written(b"A", 0, 1, b"", 0), Err((50, Some(4))));
    assert_eq!(segment_written(b"", 0, 0, DIGITS, 0), Err((14, None)));
}

#[test]
fn an_apply_by_hand() {
    let empty = Apply::default();
    assert_eq!(apply_written(&[], &empty, 2), Ok(bytes("0A 00")));
    assert_eq!(apply("0A 00"), Ok(empty.clone()));
    assert_eq!(apply(""), Ok(empty));
    let two = Apply {
        restart_required: true,
        information: Information {
            components: vec![Component::default(); 2],
            ..Information::default()
        },
    };
    assert_eq!(
        apply_written(&[], &two, 8),
        Ok(bytes("0A 04 1A 00 1A 00 10 01"))
    );
    assert_eq!(apply("0A 04 1A 00 1A 00 10 01"), Ok(two));
    assert_eq!(apply_refusal("0A 00 0A"), 34);
    assert_eq!(apply_refusal("0A 00 08"), 33);
    let eight = "1A 00 ".repeat(8);
    assert_eq!(apply_refusal(&format!("0A 11 {eight} 1A")), 34);
    assert_eq!(apply_refusal("0A 02 1A 05 0B"), 32);
    assert_eq!(apply_refusal("0A 02 1A 05"), 30);
    assert!(apply("10 80 80 80 80 10").unwrap().restart_required);
}

#[test]
fn applies_refused() {
    for (text, number) in [
        ("80", 30),
        ("80 80 80 80 80 80 80 80 80 02", 31),
        ("00 00", 32),
        ("0C", 32),
        ("08", 33),
        ("09", 33),
        ("0D", 33),
        ("12", 33),
        ("11", 33),
        ("15", 33),
        ("0A", 30),
        ("0A 01", 30),
        ("0A FF FF FF FF FF FF FF FF FF 02", 31),
        ("10", 30),
        ("10 FF FF FF FF FF FF FF FF FF 02", 31),
        ("1A 01", 30),
        // At the tag of the second: after 30 and 31 of that tag, 32 and 33, before its length.
        ("0A 00 8A", 30),
        ("0A 00 8A 80 80 80 80 80 80 80 80 02", 31),
        ("0A 00 0B", 32),
        ("0A 00 09", 33),
        ("0A 00 0A FF FF FF FF FF FF FF FF FF 02", 34),
        ("0A 00 0A 05", 34),
        ("0A 00 8A 80 00", 34),
    ] {
        assert_eq!(apply_refusal(text), number, "{text}");
    }
    assert!(apply("1A 01 00 20 07 29 00 00 00 00 00 00 00 00 35 00 00 00 00").is_ok());
}

#[test]
fn nested_messages_refused() {
    for (text, number) in [
        ("80", 30),
        ("80 80 80 80 80 80 80 80 80 02", 31),
        ("00 00", 32),
        ("0A", 33),
        ("10", 33),
        ("18", 33),
        ("1D", 33),
        ("20", 33),
        ("28", 33),
        ("08", 30),
        ("12 01", 30),
        ("22 01", 30),
        ("2A 01", 30),
        ("1A", 30),
        ("1A 01", 30),
        ("1A FF FF FF FF FF FF FF FF FF 02", 31),
        ("32 01", 30),
    ] {
        let message = informed(text);
        assert_eq!(apply_refusal(&message), number, "{message}");
        // What follows the message within does not help it.
        let behind = format!("{message} 10 01");
        assert_eq!(apply_refusal(&behind), number, "{behind}");
    }
    assert!(apply(&informed("30 07 32 01 00")).is_ok());
    for (text, number) in [
        ("80", 30),
        ("80 80 80 80 80 80 80 80 80 02", 31),
        ("07", 32),
        ("0A", 33),
        ("10", 33),
        ("1A", 33),
        ("20", 33),
        ("08", 30),
        ("08 FF FF FF FF FF FF FF FF FF 02", 31),
        ("12 01", 30),
        ("18", 30),
        ("22 01", 30),
        ("2A 01", 30),
    ] {
        let message = component(text);
        assert_eq!(apply_refusal(&message), number, "{message}");
        let behind = format!("{message} 10 01");
        assert_eq!(apply_refusal(&behind), number, "{behind}");
    }
    assert!(apply(&component("28 07 2A 01 00")).is_ok());
}

#[test]
fn a_ninth_component_is_judged_at_its_tag() {
    let eight = "1A 00 ".repeat(8);
    let behind = |text: &str| apply(&informed(&format!("{eight} {text}"))).map(drop);
    assert_eq!(behind(""), Ok(()));
    assert_eq!(behind("2A 00"), Ok(()));
    assert_eq!(behind("1A"), Err(34));
    assert_eq!(behind("1A 00"), Err(34));
    assert_eq!(behind("1A 09"), Err(34));
    assert_eq!(behind("1A FF FF FF FF FF FF FF FF FF 02"), Err(34));
    assert_eq!(behind("18"), Err(33));
    assert_eq!(behind("1B"), Err(32));
    assert_eq!(behind("9A"), Err(30));
    assert_eq!(behind("0A 1A"), Err(33));
    // Components that are broken themselves come after.
    let broken = "1A 01 0A ".repeat(8);
    assert_eq!(apply_refusal(&informed(&format!("{broken} 1A"))), 34);
    assert_eq!(apply_refusal(&informed(&broken)), 33);
}

#[test]
fn outer_messages_are_read_through_first() {
    // The component is broken by 33, what follows it in firmware_information by 32, what follows
    // that by 31.
    let inner = "1A 01 0A";
    assert_eq!(apply_refusal(&informed(inner)), 33);
    assert_eq!(apply_refusal(&informed(&format!("{inner} 00"))), 32);
    let both = informed(&format!("{inner} 00"));
    let last = "10 FF FF FF FF FF FF FF FF FF 02";
    assert_eq!(apply_refusal(&format!("{both} {last}")), 31);
    // The components one after another: the first is cut, the second has a field of another type.
    assert_eq!(apply_refusal(&informed("1A 01 08 1A 01 0A")), 30);
    assert_eq!(apply_refusal(&informed("1A 01 0A 1A 01 08")), 33);
    assert_eq!(apply_refusal(&informed("1A 01 08 1A 01 0B")), 30);
    // A second firmware_information, behind one that is cut.
    assert_eq!(apply_refusal("0A 01 08 0A"), 34);
}

#[test]
fn parts_are_places_in_the_message_that_was_given() {
    // The component's bytes are places 9 to 19, those of firmware_information 4 to 31.
    let one = "22 01 53 12 02 4E 4F 18 09 08 05";
    let inner = format!("2A 01 56 1A 0B {one} 12 00 1A 00 22 02 4C 4D 08 03 08 07");
    let message = bytes(&format!("10 00 0A 1C {inner} 10 02"));
    let read = Apply::read(&message).unwrap();
    let information = &read.information;
    assert!(read.restart_required);
    assert_eq!(information.version, 7);
    assert_eq!(information.version_name, 6..7);
    assert_eq!(information.name, 22..22);
    assert_eq!(information.locale, 26..28);
    let first = Component {
        version: 5,
        name: 14..16,
        size: 9,
        signature: 11..12,
    };
    assert_eq!(information.components, [first, Component::default()]);
    // What was read is written again as it stands, in rising order.
    let again = apply_written(&message, &read, 40).unwrap();
    let expected =
        "0A 18 08 07 1A 0B 08 05 12 02 4E 4F 18 09 22 01 53 1A 00 22 02 4C 4D 2A 01 56 10 01";
    assert_eq!(again, bytes(expected));
    // Cut where a field begins it is read, elsewhere it is 30.
    for end in 0..message.len() {
        let refused = Apply::read(&message[..end])
            .err()
            .map(|broken| broken.refusal);
        let inside = ![0, 2, 32].contains(&end);
        assert_eq!(refused, inside.then_some(Refusal::EndsInside), "{end}");
    }
}

#[test]
fn scalars_and_strings_count_the_last_time() {
    let read = apply(&format!(
        "10 01 {} 10 00",
        informed("08 05 12 01 41 08 00 12 00")
    ))
    .unwrap();
    assert!(!read.restart_required);
    assert_eq!(read.information.version, 0);
    assert_eq!(read.information.name, 13..13);
    let read = apply(&component("18 05 18 80 80 80 80 10 22 01 41 22 01 42")).unwrap();
    assert_eq!(read.information.components[0].size, 0);
    assert_eq!(read.information.components[0].signature, 17..18);
}

#[test]
fn applies_written() {
    let with = |components: usize| Apply {
        information: Information {
            components: vec![Component::default(); components],
            ..Information::default()
        },
        ..Apply::default()
    };
    assert!(apply_written(&[], &with(8), 18).is_ok());
    assert_eq!(apply_written(&[], &with(8), 17), Err(14));
    assert_eq!(apply_written(&[], &with(9), 0), Err(15));
    assert_eq!(apply_written(&[], &Apply::default(), 1), Err(14));
    // A part may end where the texts end, and not beyond; of no bytes too.
    let named = |part: std::ops::Range<usize>| Apply {
        information: Information {
            name: part,
            ..Information::default()
        },
        ..Apply::default()
    };
    assert_eq!(
        apply_written(b"AB", &named(1..2), 9),
        Ok(bytes("0A 03 12 01 42"))
    );
    assert_eq!(apply_written(b"AB", &named(2..2), 9), Ok(bytes("0A 00")));
    assert_eq!(apply_written(b"AB", &named(2..3), 0), Err(15));
    assert_eq!(apply_written(b"AB", &named(3..3), 0), Err(15));
    let mut last = with(8);
    last.information.components[7].signature = 0..3;
    assert_eq!(apply_written(b"AB", &last, 0), Err(15));
    last.information.components[7].signature = 0..2;
    assert_eq!(apply_written(b"AB", &last, 0), Err(14));
}

#[test]
fn firmware_messages_come_back() {
    let mut rng = Rng::new(12);
    for _ in 0..2_000 {
        let size = rng.index(400);
        // ASCII, so that every part is well formed.
        let texts: Vec<u8> = rng.bytes(size).iter().map(|byte| byte & 0x7F).collect();
        let part = |rng: &mut Rng| {
            let start = rng.index(size + 1);
            start..rng.between(start, size)
        };
        let unsigned = |rng: &mut Rng| (rng.draw() >> 32 >> rng.below(33)) as u32;
        let given = Apply {
            restart_required: rng.once_in(2),
            information: Information {
                version: unsigned(&mut rng),
                name: part(&mut rng),
                components: (0..rng.index(9))
                    .map(|_| Component {
                        version: unsigned(&mut rng),
                        name: part(&mut rng),
                        size: unsigned(&mut rng),
                        signature: part(&mut rng),
                    })
                    .collect(),
                locale: part(&mut rng),
                version_name: part(&mut rng),
            },
        };
        let message = apply_written(&texts, &given, 20 * size + 300).unwrap();
        let read = Apply::read(&message).unwrap();
        let plain = |apply: &Apply, bytes: &[u8]| {
            let text = |part: &std::ops::Range<usize>| bytes[part.clone()].to_vec();
            let information = &apply.information;
            let components: Vec<_> = information
                .components
                .iter()
                .map(|one| (one.version, text(&one.name), one.size, text(&one.signature)))
                .collect();
            (
                apply.restart_required,
                information.version,
                text(&information.name),
                components,
                text(&information.locale),
                text(&information.version_name),
            )
        };
        assert_eq!(plain(&read, &message), plain(&given, &texts));
    }
}

fn field(text: &str, place: u64) -> Result<Option<Field>, u64> {
    Field::at(&bytes(text), place).map_err(Refusal::number)
}

#[test]
fn a_field_at_a_place() {
    let made = |number, wire, content, next| {
        Ok(Some(Field {
            number,
            wire,
            content,
            next,
        }))
    };
    let text = "08 80 01 12 02 41 42 2D 01 02 03 04 F9 FF FF FF 0F 01 02 03 04 05 06 07 08";
    assert_eq!(
        field(text, 0),
        made(1, Wire::Varint, Content::Number(128), 3)
    );
    assert_eq!(
        field(text, 3),
        made(2, Wire::Delimited, Content::Part(5..7), 7)
    );
    assert_eq!(
        field(text, 7),
        made(5, Wire::Four, Content::Part(8..12), 12)
    );
    assert_eq!(
        field(text, 12),
        made(LAST_FIELD, Wire::Eight, Content::Part(17..25), 25)
    );
    // A place within a field is read like any other.
    assert_eq!(
        field(text, 1),
        made(16, Wire::Varint, Content::Number(18), 4)
    );
    for place in [25, 26, 1 << 32, u64::MAX] {
        assert_eq!(field(text, place), Ok(None));
    }
    assert_eq!(field("", 0), Ok(None));
}

#[test]
fn fields_refused() {
    for (text, number) in [
        ("80", 30),
        ("80 80 80 80 80 80 80 80 80", 30),
        ("80 80 80 80 80 80 80 80 80 02", 31),
        ("80 80 80 80 80 80 80 80 80 01", 32),
        ("00", 32),
        ("0B", 32),
        ("0C", 32),
        ("0E", 32),
        ("0F", 32),
        ("80 80 80 80 10", 32),
        ("08", 30),
        ("08 80", 30),
        ("08 FF FF FF FF FF FF FF FF FF 02", 31),
        ("09 00 00 00 00 00 00 00", 30),
        ("0D 00 00 00", 30),
        ("0A", 30),
        ("0A 02 00", 30),
        ("0A FF FF FF FF FF FF FF FF FF 01", 30),
        ("0A FF FF FF FF FF FF FF FF FF 02", 31),
    ] {
        assert_eq!(field(text, 0), Err(number), "{text}");
        assert_eq!(field(&format!("08 00 {text}"), 2), Err(number), "{text}");
    }
}
