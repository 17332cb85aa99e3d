//! Inputs that grow, hostile ones above all, for what the archive takes at each size.

use crate::calls::*;
use crate::control::Reader;
use crate::inputs::repeated;
use crate::job::{Growth, Job, Subject};
use crate::rows_classic::{feed_job, parts_job, write_job};
use crate::rows_low_energy::{accept_job, judge_job, report_job, write_packets_job};
use crate::rows_outbox::{append_job, records_job, whole_job};
use crate::{control, inputs, work};
use second::outbox::TWO;

/// All of a stream in one call.
const ONE_CALL: usize = usize::MAX;

pub fn growth() -> Vec<Growth> {
    let topics = [
        patterns(),
        streams(),
        endless(),
        writers(),
        receiver(),
        information_lines(),
        other_messages(),
        outbox(),
    ];
    topics.into_iter().flatten().collect()
}

fn doubling(
    name: impl Into<String>,
    unit: &'static str,
    first: usize,
    make: impl Fn(usize) -> Job + 'static,
) -> Growth {
    Growth {
        name: name.into(),
        unit,
        sizes: [first, 2 * first, 4 * first, 8 * first],
        make: Box::new(make),
    }
}

/// A stream of one pattern; the sizes are whole numbers of it, so that twice the size is twice the
/// work.
fn cyclic(name: &str, call: usize, pattern: Vec<u8>) -> Growth {
    let first = 16_384 / pattern.len() * pattern.len();
    doubling(format!("feed: {name}"), "bytes", first, move |n| {
        feed_job(repeated(&pattern, n), call)
    })
}

fn patterns() -> Vec<Growth> {
    let line = |(name, pattern): (&str, &[u8])| cyclic(name, ONE_CALL, pattern.to_vec());
    inputs::PATTERNS.map(line).into()
}

fn streams() -> Vec<Growth> {
    let ordinary = || inputs::frames(&inputs::ordinary(8_000));
    let marks = || inputs::frames(&inputs::marks(4_000));
    let noise = || inputs::rng().bytes(8_192);
    let lines = [
        ("bodies of 4,099 bytes (24)", ONE_CALL, inputs::too_long()),
        (
            "bodies of 4,099 bytes, 1 byte a call",
            1,
            inputs::too_long(),
        ),
        (
            "4,099 bytes, all escaped (24)",
            ONE_CALL,
            inputs::too_long_escaped(),
        ),
        (
            "4,099 bytes, all escaped, 1 byte a call",
            1,
            inputs::too_long_escaped(),
        ),
        ("wrong checksums (25)", ONE_CALL, inputs::wrong_sum()),
        ("ordinary frames", ONE_CALL, ordinary()),
        ("ordinary frames, 1 byte a call", 1, ordinary()),
        ("frames of marks only", ONE_CALL, marks()),
        ("noise", ONE_CALL, noise()),
        ("noise, 1 byte a call", 1, noise()),
    ];
    lines
        .map(|(name, call, pattern)| cyclic(name, call, pattern))
        .into()
}

/// A begun frame and then plain bytes only.
fn endless() -> Vec<Growth> {
    let calls = [
        ("feed: a frame that never ends", ONE_CALL),
        ("feed: a frame that never ends, 16 bytes a call", 16),
        ("feed: a frame that never ends, 1 byte a call", 1),
    ];
    let line = |(name, call)| {
        doubling(name, "bytes", 16_384, move |n| {
            let mut stream = inputs::HEADER.to_vec();
            stream.resize(n, 0x41);
            feed_job(stream, call)
        })
    };
    calls.map(line).into()
}

/// One payload that is marks only, by a pattern that divides its size.
fn marks(size: usize) -> Vec<Vec<u8>> {
    vec![repeated(&[0xF0, 0xF1, 0xF2, 0xF2], size)]
}

fn writers() -> Vec<Growth> {
    let line = |name, make: fn(usize) -> Job| doubling(name, "bytes", 512, make);
    vec![
        line("frame writer: marks only", |n| write_job(marks(n), false)),
        line(
            "frame writer: marks only, output of the frame's size",
            |n| write_job(marks(n), true),
        ),
        line("frame writer by parts: outputs of 1 byte", |n| {
            parts_job(vec![vec![0x41; n]], 1)
        }),
        line(
            "frame writer by parts: marks only, outputs of 1 byte",
            |n| parts_job(marks(n), 1),
        ),
        line(
            "frame writer by parts: marks only, outputs of 64 bytes",
            |n| parts_job(marks(n), 64),
        ),
        line("packet writer: all packets of a message, room 20", |n| {
            write_packets_job(vec![vec![0x41; n]], 20)
        }),
    ]
}

fn receiver() -> Vec<Growth> {
    let many = |name, packets: Vec<Vec<u8>>| {
        let first = 1_024 / packets.len() * packets.len();
        doubling(name, "packets", first, move |n| {
            accept_job(packets.iter().cloned().cycle().take(n).collect())
        })
    };
    let refused = inputs::refused()
        .into_iter()
        .flat_map(|(_, packets)| packets);
    vec![
        many(
            "receiver: first packets that replace each other",
            vec![inputs::first_packet()],
        ),
        many("receiver: refused packets of each kind", refused.collect()),
        doubling(
            "receiver: messages in pieces of one byte",
            "packets",
            512,
            |n| accept_job(inputs::single_bytes(n)),
        ),
        // The longest is a capture of 65,537 bytes.
        doubling("judge: ACKs, the smallest packets", "packets", 1_024, |n| {
            judge_job(inputs::acks(n), 20)
        }),
        // The first decides; the others are walked. The longest is a capture of 65,521 bytes.
        doubling("judge: packets of one byte", "packets", 2_730, |n| {
            judge_job(vec![vec![0x61]; n], 20)
        }),
        doubling("report: packets of one byte", "packets", 2_730, |n| {
            report_job(vec![vec![0x61]; n])
        }),
        doubling("receiver: one packet", "bytes", 512, |n| {
            accept_job(vec![inputs::one_packet(n)])
        }),
    ]
}

/// One message of n bytes, read once.
fn information_lines() -> Vec<Growth> {
    let line = |name, message: fn(usize) -> Vec<u8>| {
        doubling(format!("information: {name}"), "bytes", 4_096, move |n| {
            information(message(n))
        })
    };
    vec![
        line("unknown fields of 2 bytes", unknown),
        line("unknown fields of 2 bytes, the last cut (30)", |n| {
            unknown(n - 1)
        }),
        line("unknown fields, tags of 6 bytes and values of 10", |n| {
            repeated(&LONG_FIELD, n)
        }),
        line("empty packed lists", |n| repeated(&[0x1A, 0x00], n)),
        line("strings given again and again", |n| {
            repeated(&[0x0A, 0x02, 0x41, 0x42], n)
        }),
        line("a packed list in a skipped field", |n| {
            delimited(0x2A, repeated(&[0xFF, 0x01], n))
        }),
        line("a packed list, refused at its ninth entry (34)", |n| {
            delimited(0x1A, vec![0x01; n])
        }),
        line("8 packed entries of 10 bytes, then unknown fields", |n| {
            [delimited(0x1A, LONG_VARINT.repeat(8)), unknown(n)].concat()
        }),
        line("a string of ASCII", |n| name(repeated(b"A", n))),
        line("a string of sequences of 2 bytes", |n| {
            name(repeated("\u{DF}".as_bytes(), n))
        }),
        line("a string of sequences of 3 bytes", |n| {
            name(repeated("\u{FFFD}".as_bytes(), n / 3 * 3))
        }),
        line(
            "a string of sequences of 4 bytes, the table's last row",
            |n| name(repeated("\u{10FFFF}".as_bytes(), n)),
        ),
        line("a string of ASCII and sequences of 2 bytes in turn", |n| {
            name(repeated("A\u{DF}A".as_bytes(), n))
        }),
        line("a string of sequences of 4 bytes, the last cut (36)", |n| {
            name(repeated("\u{10FFFF}".as_bytes(), n - 1))
        }),
    ]
}

fn other_messages() -> Vec<Growth> {
    let line = |name, make: fn(usize) -> Job| doubling(name, "bytes", 4_096, make);
    vec![
        line("features: a number given again and again", |n| {
            features(repeated(&[0x08, 0x01], n))
        }),
        line("envelope: unknown fields of 2 bytes", |n| {
            envelope(unknown(n))
        }),
        line("envelope: a response of unknown fields", |n| {
            envelope(delimited(0x4A, unknown(n)))
        }),
        line(
            "envelope: unknown fields with values of 4, 8 and 1 bytes",
            |n| envelope(repeated(&FIXED_FIELDS, n)),
        ),
    ]
}

// Fields whose sizes divide 4,096, so that no message ends inside one.

/// Field 5 with its tag in six bytes and its number in ten.
const LONG_FIELD: [u8; 16] = [
    0xA8, 0x80, 0x80, 0x80, 0x80, 0x00, 0xFF, 0xFF, 0xFF, 0xFF, 0xFF, 0xFF, 0xFF, 0xFF, 0xFF, 0x01,
];
/// Fields 5 and 6 of four and eight bytes, and field 5 as a number.
const FIXED_FIELDS: [u8; 16] = [0x2D, 0, 0, 0, 0, 0x31, 0, 0, 0, 0, 0, 0, 0, 0, 0x28, 0];
/// The largest number.
const LONG_VARINT: [u8; 10] = [0xFF, 0xFF, 0xFF, 0xFF, 0xFF, 0xFF, 0xFF, 0xFF, 0xFF, 0x01];

/// Fields 5 that are the number 0.
fn unknown(size: usize) -> Vec<u8> {
    repeated(&[0x28, 0x00], size)
}

/// A length-delimited field, its length in three bytes.
fn delimited(tag: u8, bytes: Vec<u8>) -> Vec<u8> {
    let (low, middle, high) = (
        bytes.len() & 0x7F,
        bytes.len() >> 7 & 0x7F,
        bytes.len() >> 14,
    );
    let mut field = vec![tag, low as u8 | 0x80, middle as u8 | 0x80, high as u8];
    field.extend(bytes);
    field
}

/// Device information with this name.
fn name(string: Vec<u8>) -> Vec<u8> {
    delimited(0x12, string)
}

fn information(message: Vec<u8>) -> Job {
    let (count, messages) = (message.len(), vec![message]);
    let reader = Reader::in_message(archive::information_read);
    Job::of("byte", count).with(
        Subject::Archive,
        work!(control::read_information(reader, &messages)),
    )
}

fn features(message: Vec<u8>) -> Job {
    let (count, messages) = (message.len(), vec![message]);
    let reader = Reader::in_message(archive::features_read);
    Job::of("byte", count).with(
        Subject::Archive,
        work!(control::read_features(reader, &messages)),
    )
}

fn envelope(message: Vec<u8>) -> Job {
    let (count, messages) = (message.len(), vec![message]);
    let reader = Reader::in_message(archive::envelope_read);
    Job::of("byte", count).with(
        Subject::Archive,
        work!(control::read_envelope(reader, &messages)),
    )
}

fn outbox() -> Vec<Growth> {
    let line = |name, make: fn(usize) -> Job| doubling(name, "records", 1_024, make);
    vec![
        line("outbox: records of 1 byte, place after place", |n| {
            records_job(inputs::outbox(TWO, n, 1), 1)
        }),
        line("outbox: whole, records of 1 byte", |n| {
            whole_job(inputs::outbox(TWO, n, 1), 1)
        }),
        line("outbox: whole, records with no payload", |n| {
            whole_job(inputs::outbox(TWO, n, 0), 1)
        }),
        line("outbox: append after records of 1 byte", |n| {
            append_job(inputs::outbox(TWO, n, 1), 1, 1)
        }),
    ]
}
