//! Lines about control messages.

use crate::calls::*;
use crate::control::{EnvelopeGiven, FeaturesGiven, InformationGiven, Reader, ResponseGiven};
use crate::job::{Job, Row, Subject};
use crate::{control, inputs, of_each, of_messages, work};
use second::control::{write_envelope, write_features, write_information, write_response, Given};
use std::rc::Rc;

/// Different messages in each line, and how often each is read or written.
pub const MESSAGES: usize = 64;
pub const ROUNDS: usize = 32;
/// The member number that stands for the schema's largest.
const FIELD: u64 = 100;

pub fn rows() -> Vec<Row> {
    let read = |name, make: fn() -> Job| Row::new("messages read", name, make);
    let write = |name, make: fn() -> Job| Row::new("messages written", name, make);
    vec![
        read("envelope with a response and its payload", || {
            read_envelope_job(envelopes(1))
        }),
        read("envelope with another member", || {
            read_envelope_job(envelopes(2))
        }),
        read("envelope with a command only", || {
            read_envelope_job(envelopes(0))
        }),
        read("response with a payload", read_response_job),
        read(
            "information, 3 strings of 20 bytes and 3 transports",
            read_information_job,
        ),
        read("features", read_features_job),
        write("envelope with a response and its payload", || {
            write_envelope_job(1)
        }),
        write("envelope with another member", || write_envelope_job(2)),
        write("envelope with a command only", || write_envelope_job(0)),
        write("response with a payload", write_response_job),
        write(
            "information, 3 strings of 20 bytes and 3 transports",
            write_information_job,
        ),
        write("features", write_features_job),
    ]
    .into_iter()
    .chain(text_rows())
    .chain([Row::new("any message by fields", "information", fields_job)])
    .collect()
}

/// Device information with a name of 4,096 bytes, judged byte by byte.
fn text_rows() -> Vec<Row> {
    let texts = [
        ("ASCII", "A"),
        ("letters of two bytes", "\u{DF}"),
        ("letters of three bytes", "\u{20AC}"),
        ("letters of four bytes", "\u{10FFFF}"),
        ("ASCII and letters of two bytes in turn", "A\u{DF}A"),
        ("German text", "Gr\u{FC}\u{DF}e aus K\u{F6}ln, "),
    ];
    let row = |(name, text): (&'static str, &'static str)| {
        Row::new("strings read", name, move || text_job(text))
    };
    texts.map(row).into()
}

fn text_job(text: &str) -> Job {
    let name = text.repeat(4_096 / text.len());
    let mut message = vec![0; 4_200];
    let written = write_information(b"", name.as_bytes(), &[], b"", &mut message).expect("lawful");
    message.truncate(written);
    let messages = Rc::new(vec![message; 16]);
    Job::of("byte", 16 * name.len()).each(of_each!(MessageRead information_read), |call| {
        let messages = messages.clone();
        work!(control::read_information(
            Reader::in_message(call),
            &messages
        ))
    })
}

fn fields_job() -> Job {
    let messages = Rc::new(information_messages());
    let fields = messages.len() * 4;
    Job::of("field", fields).each(of_each!(FieldRead field_read), |call| {
        let messages = messages.clone();
        work!(control::read_fields(call, &messages))
    })
}

pub fn many<T>(mut one: impl FnMut(&mut second::rng::Rng) -> T) -> Vec<T> {
    let mut rng = inputs::rng();
    (0..MESSAGES).map(|_| one(&mut rng)).collect()
}

fn envelopes(payload: u64) -> Vec<EnvelopeGiven> {
    many(|rng| EnvelopeGiven {
        command: *rng.pick(&[20, 28, 94, 95]),
        payload,
        error_code: if payload == 1 { 3 } else { 0 },
        field: FIELD,
        bytes: rng.bytes(32),
    })
}

fn responses() -> Vec<ResponseGiven> {
    many(|rng| ResponseGiven {
        error_code: 3,
        field: FIELD,
        bytes: rng.bytes(32),
    })
}

/// A string of ASCII.
pub fn letters(rng: &mut second::rng::Rng, length: usize) -> Vec<u8> {
    let byte = |_| 0x20 + rng.below(0x5F) as u8;
    (0..length).map(byte).collect()
}

fn informations() -> Vec<InformationGiven> {
    many(|rng| InformationGiven {
        strings: [20; 3].map(|length| letters(rng, length)),
        transports: vec![1, 2, 3],
    })
}

fn features() -> Vec<FeaturesGiven> {
    many(|rng| FeaturesGiven {
        features: rng.below(1 << 20),
        device_attributes: rng.below(1 << 20),
    })
}

/// The bytes of messages, each as often as it is read.
pub fn bytes<T>(messages: &[T], write: impl Fn(&T, &mut [u8]) -> usize) -> Vec<Vec<u8>> {
    let one = |message| {
        let mut output = vec![0; control::OUTPUT];
        let written = write(message, &mut output);
        output.truncate(written);
        output
    };
    let made: Vec<_> = messages.iter().map(one).collect();
    made.iter()
        .cloned()
        .cycle()
        .take(MESSAGES * ROUNDS)
        .collect()
}

/// A reader for each subject, of its call.
pub fn readers(calls: [(Subject, MessageRead); 6]) -> [(Subject, Reader); 6] {
    calls.map(|(subject, read)| {
        let decoded = match subject {
            Subject::Nanopb => Some(unsafe { nanopb::decoded() }),
            Subject::ProtobufC => Some(unsafe { pbc::decoded() }),
            _ => None,
        };
        (subject, Reader { read, decoded })
    })
}

/// A job of reading: the messages, the loop and the call.
macro_rules! read_job {
    ($messages:expr, $loops:ident::$read:ident, $call:ident) => {{
        let messages = Rc::new($messages);
        let calls = readers(of_messages!(MessageRead $call));
        Job::of("message", messages.len()).each(calls, |reader| {
            let messages = messages.clone();
            work!($loops::$read(reader, &messages))
        })
    }};
}

fn given(envelope: &EnvelopeGiven) -> Given<'_> {
    let (error_code, field, bytes) = (
        envelope.error_code as i32,
        envelope.field,
        &envelope.bytes[..],
    );
    match envelope.payload {
        0 => Given::None,
        1 => Given::Response {
            error_code,
            member: Some((field, bytes)),
        },
        _ => Given::Other { field, bytes },
    }
}

fn read_envelope_job(envelopes: Vec<EnvelopeGiven>) -> Job {
    let messages = bytes(&envelopes, |one, output| {
        write_envelope(one.command as i32, given(one), output).expect("lawful")
    });
    read_job!(messages, control::read_envelope, envelope_read)
}

fn read_response_job() -> Job {
    let messages = bytes(&responses(), |one, output| {
        let member = Some((one.field, &one.bytes[..]));
        write_response(one.error_code as i32, member, output).expect("lawful")
    });
    read_job!(messages, control::read_response, response_read)
}

fn information_messages() -> Vec<Vec<u8>> {
    bytes(&informations(), |one, output| {
        let [serial_number, name, device_type] = &one.strings;
        write_information(serial_number, name, &narrow(one), device_type, output).expect("lawful")
    })
}

fn read_information_job() -> Job {
    read_job!(
        information_messages(),
        control::read_information,
        information_read
    )
}

fn read_features_job() -> Job {
    let messages = bytes(&features(), |one, output| {
        let (features, device_attributes) = (one.features, one.device_attributes);
        let told = second::control::Features {
            features,
            device_attributes,
        };
        write_features(told, output).expect("lawful")
    });
    read_job!(messages, control::read_features, features_read)
}

/// Transports as the writer of second/ takes them.
fn narrow(information: &InformationGiven) -> Vec<i32> {
    information
        .transports
        .iter()
        .map(|&one| one as i32)
        .collect()
}

/// A job of writing: the messages, the loop and the call.
macro_rules! write_job {
    ($messages:expr, $loops:ident::$write:ident, $type:ident) => {{
        let messages = Rc::new($messages);
        Job::of("message", MESSAGES * ROUNDS).each(of_messages!($type $write), |call| {
            let messages = messages.clone();
            work!($loops::$write(call, &messages, ROUNDS))
        })
    }};
}

pub(crate) use {read_job, write_job};

/// Before the messages of a line are filled ahead.
pub fn forget() {
    unsafe {
        nanopb::forget();
        pbc::forget();
    }
}

fn write_envelope_job(payload: u64) -> Job {
    forget();
    for one in &envelopes(payload) {
        let (bytes, length) = (one.bytes.as_ptr(), one.bytes.len());
        for prepare in [nanopb::envelope_prepare, pbc::envelope_prepare] {
            unsafe {
                prepare(
                    one.command,
                    one.payload,
                    one.error_code,
                    one.field,
                    bytes,
                    length,
                )
            };
        }
    }
    write_job!(envelopes(payload), control::envelope_write, EnvelopeWrite)
}

fn write_response_job() -> Job {
    forget();
    for one in &responses() {
        let (bytes, length) = (one.bytes.as_ptr(), one.bytes.len());
        for prepare in [nanopb::response_prepare, pbc::response_prepare] {
            unsafe { prepare(one.error_code, one.field, bytes, length) };
        }
    }
    write_job!(responses(), control::response_write, ResponseWrite)
}

fn write_information_job() -> Job {
    forget();
    for one in &informations() {
        let [a, b, c] = one
            .strings
            .each_ref()
            .map(|string| (string.as_ptr(), string.len()));
        let (transports, count) = (one.transports.as_ptr(), one.transports.len());
        for prepare in [nanopb::information_prepare, pbc::information_prepare] {
            unsafe { prepare(a.0, a.1, b.0, b.1, c.0, c.1, transports, count) };
        }
    }
    write_job!(informations(), control::information_write, InformationWrite)
}

fn write_features_job() -> Job {
    forget();
    for one in &features() {
        for prepare in [nanopb::features_prepare, pbc::features_prepare] {
            unsafe { prepare(one.features, one.device_attributes) };
        }
    }
    write_job!(features(), control::features_write, FeaturesWrite)
}
