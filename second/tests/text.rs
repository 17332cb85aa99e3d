//! Change request No. 3, on the model itself: strings that are not well formed, each with its field
//! and the place, and their place among the other refusals.

use second::control::{self, Information};
use second::driver::worked::bytes;
use second::firmware::{self, write_apply, write_segment, Apply, Component, Segment};
use second::refusal::Broken;

fn told(broken: Broken) -> (u64, Option<u64>, Option<u64>) {
    (broken.refusal.number(), broken.field, broken.place)
}

fn text(field: u64, place: u64) -> (u64, Option<u64>, Option<u64>) {
    (36, Some(field), Some(place))
}

fn plain(number: u64) -> (u64, Option<u64>, Option<u64>) {
    (number, None, None)
}

fn information(message: &str) -> Result<(), (u64, Option<u64>, Option<u64>)> {
    Information::read(&bytes(message)).map(drop).map_err(told)
}

#[test]
fn device_information_read() {
    // A string that a later one replaces is judged too; the next field is not looked at.
    assert_eq!(information("12 01 FF 12 00"), Err(text(2, 0)));
    assert_eq!(information("12 01 FF 1A"), Err(text(2, 0)));
    // A string that the message cuts is 30; so is one that begins well.
    assert_eq!(information("12 02 FF"), Err(plain(30)));
    // A field before it goes first.
    assert_eq!(information("0B 12 01 FF"), Err(plain(32)));
    // Bytes that are no string are not judged.
    assert_eq!(information("2A 01 FF"), Ok(()));
    assert_eq!(information("0A 04 41 E2 82 41"), Err(text(1, 1)));
    assert_eq!(information("22 03 E2 82 AC"), Ok(()));
    assert_eq!(information("22 02 41 C3"), Err(text(4, 1)));
}

#[test]
fn device_information_written() {
    let write = |serial_number: &[u8], name: &[u8], count, device_type: &[u8], room| {
        let transports = vec![0; count];
        let mut output = vec![0xCC; room];
        let told =
            control::write_information(serial_number, name, &transports, device_type, &mut output);
        if told.is_err() {
            assert!(output.iter().all(|&byte| byte == 0xCC));
        }
        told
    };
    assert_eq!(write(b"", b"\xff", 9, b"", 0).map_err(told), Err(plain(15)));
    assert_eq!(
        write(b"", b"A\xff", 8, b"\x80", 0).map_err(told),
        Err(text(2, 1))
    );
    assert_eq!(
        write(b"", b"A", 0, b"\x80", 0).map_err(told),
        Err(text(4, 0))
    );
    assert_eq!(write(b"", b"A", 0, b"", 2).map_err(told), Err(plain(14)));
    assert_eq!(write(b"", b"A", 0, b"", 3).map_err(told), Ok(3));
}

#[test]
fn segments() {
    let read = |message: &str| Segment::read(&bytes(message)).map(drop).map_err(told);
    // 36 before 50, reading and writing.
    assert_eq!(read("10 01 22 01 FF"), Err(text(4, 0)));
    assert_eq!(read("10 01 0A 02 41 80 22"), Err(text(1, 1)));
    let mut output = [];
    let write = write_segment(b"A\x80", 1, 0, b"\xff", &mut output);
    assert_eq!(write.map_err(told), Err(text(1, 1)));
    let write = write_segment(b"A", 1, 0, b"\xff", &mut output);
    assert_eq!(write.map_err(told), Err(text(4, 0)));
    let write = write_segment(b"A", 1, 0, b"", &mut output);
    assert_eq!(write.map_err(told), Err((50, Some(2), None)));
}

/// A locale `C3` and a component named `41 80`: reading goes through the outer message first, and
/// writing goes in the order of the fields.
#[test]
fn components_stand_between_name_and_locale() {
    let message = bytes("0A 09 1A 04 12 02 41 80 22 01 C3");
    assert_eq!(Apply::read(&message).map_err(told), Err(text(4, 0)));
    let texts = [0x41, 0x80, 0xC3];
    let component = Component {
        name: 0..2,
        ..Component::default()
    };
    let apply = Apply {
        information: firmware::Information {
            components: vec![component],
            locale: 2..3,
            ..firmware::Information::default()
        },
        restart_required: false,
    };
    let mut output = [0xCC; 40];
    assert_eq!(
        write_apply(&texts, &apply, &mut output).map_err(told),
        Err(text(2, 1))
    );
    assert_eq!(output, [0xCC; 40]);
    // 15 goes before it.
    let outside = Apply {
        information: firmware::Information {
            version_name: 0..4,
            ..apply.information
        },
        restart_required: false,
    };
    assert_eq!(
        write_apply(&texts, &outside, &mut output).map_err(told),
        Err(plain(15))
    );
}
