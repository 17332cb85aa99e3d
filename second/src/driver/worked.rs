//! "Worked by hand": P1 to P12, the slips that the paper names, and the cases of the change requests.

use super::Plan;
use crate::classic::{self, LIMIT};
use crate::comparison::{Compared, Comparison};
use crate::implementation::{Call, Operation, Slot};
use crate::low_energy::{self, SLOTS};
use crate::rng::Rng;

/// Bytes from hex text.
pub fn bytes(text: &str) -> Vec<u8> {
    text.split_whitespace()
        .map(|pair| u8::from_str_radix(pair, 16).expect("two hex digits"))
        .collect()
}

/// A buffer filled with a byte that no result here has.
pub(super) fn blank(size: usize) -> Vec<u8> {
    vec![0xCC; size]
}

/// Whether a writer left exactly these bytes at the front and nothing else.
pub(super) fn wrote(call: &Call, made: &[u8]) -> bool {
    call.answer[0] == made.len() as u64
        && call.lent.starts_with(made)
        && call.lent[made.len()..].iter().all(|&byte| byte == 0xCC)
}

pub fn run(c: &mut Comparison<'_>, _: &mut Rng, _: Plan) -> Compared<()> {
    frames(c)?;
    parts(c)?;
    limits(c)?;
    packets(c)?;
    messages(c)?;
    replies(c)?;
    outbox(c)?;
    slips(c)?;
    requests(c)
}

/// Feeds a stream whole, call after call, and holds it to what each call has to tell: the number
/// returned, then outcome, used, sequence and length.
fn feeds(c: &mut Comparison<'_>, stream: &[u8], told: &[(u64, [u64; 4])]) -> Compared<Call> {
    let mut call = Call::new(Operation::ExtractorFeed)
        .state(&[LIMIT, 0, 0, 0])
        .lent(blank(classic::buffer(LIMIT)));
    let mut rest = stream;
    for (returned, answer) in told {
        call.inputs[0] = rest.to_vec();
        c.expect(&mut call, *returned, |call| call.answer == answer)?;
        rest = &rest[answer[1] as usize..];
    }
    c.hold(rest.is_empty(), "all bytes are used", &call)?;
    Ok(call)
}

fn frames(c: &mut Comparison<'_>) -> Compared<()> {
    let cases: [(u64, &str, &str); 2] = [
        (0, "", "F0 02 00 00 00 02 F1"),
        (5, "F0", "F0 02 00 05 F2 02 00 F2 00 F1"),
    ];
    for (case, (sequence, payload, frame)) in cases.into_iter().enumerate() {
        c.at = format!("P{}", case + 1);
        let (payload, frame) = (bytes(payload), bytes(frame));
        let mut call = Call::new(Operation::FrameWrite)
            .numbers(&[sequence, LIMIT])
            .inputs(&[&payload])
            .lent(blank(40));
        c.expect(&mut call, 0, |call| wrote(call, &frame))?;
        let length = payload.len() as u64;
        let told = [(0, [2, frame.len() as u64, sequence, length])];
        let call = feeds(c, &frame, &told)?;
        c.hold(call.lent.starts_with(&payload), "the payload", &call)?;
    }
    c.at = "P3".to_string();
    for (before, after) in [(0xEF, 0xF3), (0xFF, 0x00), (0x00, 0x01)] {
        let mut call = Call::new(Operation::NextSequence).numbers(&[before]);
        c.expect(&mut call, 0, |call| call.answer == [after])?;
    }
    c.at = "the bytes of the listing".to_string();
    let stream = bytes("00 F0 02 00 05 F2 02 00 F2 00 F1 F0 02 F0 02 00 06 00 02 F1");
    let told = [(0, [2, 11, 5, 1]), (20, [0, 3, 0, 0]), (0, [2, 6, 6, 0])];
    feeds(c, &stream, &told)?;
    Ok(())
}

/// A frame of one byte F0 by parts: what is offered, the output's size, then the number returned, the
/// bytes taken and what was written.
fn parts(c: &mut Comparison<'_>) -> Compared<()> {
    c.at = "a frame by parts".to_string();
    let mut begin = Call::new(Operation::FrameBegin).numbers(&[5, LIMIT, 1]);
    let begun = [LIMIT, 5, 1, 0, 2, 0, 0];
    c.expect(&mut begin, 0, |call| call.state == begun)?;
    let calls: [(&str, usize, u64, u64, &str); 10] = [
        ("", 3, 0, 0, "F0 02 00"),
        ("", 9, 0, 0, "05"),
        ("F0", 1, 0, 1, "F2"),
        ("", 1, 0, 0, "02"),
        ("00", 1, 26, 0, ""),
        ("", 0, 14, 0, ""),
        ("", 9, 0, 0, "00 F2 00 F1"),
        ("", 9, 0, 0, ""),
        ("00", 0, 26, 0, ""),
        ("", 0, 14, 0, ""),
    ];
    let mut call = Call::new(Operation::FramePart).state(&begin.state);
    for (place, (offered, size, returned, taken, made)) in calls.into_iter().enumerate() {
        let made = bytes(made);
        call.inputs[0] = bytes(offered);
        call.lent = blank(size);
        let before = call.state.clone();
        let ended = u64::from(returned == 0 && place >= 6);
        c.expect(&mut call, returned, |call| {
            call.answer == [taken, made.len() as u64, ended]
                && call.lent.starts_with(&made)
                && call.lent[made.len()..].iter().all(|&byte| byte == 0xCC)
                && (call.state == before) == made.is_empty()
        })?;
    }
    Ok(())
}

/// No. 6 on Classic: 17 in openings and first in the writers, and 1 for a state whose limit is none.
fn limits(c: &mut Comparison<'_>) -> Compared<()> {
    c.at = "limits of Classic".to_string();
    let mark = u64::from(classic::END);
    for (limit, returned) in [(0, 17), (1, 0), (65_535, 0), (65_536, 17), (u64::MAX, 17)] {
        let mut open = Call::new(Operation::ExtractorOpen).numbers(&[limit]);
        let state = [if returned == 0 { limit } else { 0 }, 0, 0, 0];
        c.expect(&mut open, returned, |call| call.state == state)?;
        let bad = if returned == 0 { 15 } else { returned };
        let mut write = Call::new(Operation::FrameWrite).numbers(&[mark, limit]);
        c.expect(&mut write, bad, |_| true)?;
        let mut begin = Call::new(Operation::FrameBegin).numbers(&[mark, limit, 1]);
        c.expect(&mut begin, bad, |call| call.state == [0; 7])?;
    }
    for size in [0, 1, 2, 4_098] {
        let mut step = Call::new(Operation::ExtractorStep).lent(blank(size));
        c.expect(&mut step, 1, |call| call.state == [0; 4])?;
    }
    let mut part = Call::new(Operation::FramePart).lent(blank(9));
    c.expect(&mut part, 1, |call| call.state == [0; 7])?;
    // A payload of as many bytes as the limit, and one more.
    for (payload, returned) in [("41", 0), ("41 42", 15)] {
        let mut write = Call::new(Operation::FrameWrite)
            .numbers(&[5, 1])
            .inputs(&[&bytes(payload)])
            .lent(blank(20));
        c.expect(&mut write, returned, |_| true)?;
    }
    let mut feed = Call::new(Operation::ExtractorFeed)
        .state(&[1, 0, 0, 0])
        .lent(blank(3));
    feed.inputs[0] = bytes("F0 02 00 05 41 00 43 F1 F0 02 00 05 41 42 00 85 F1");
    c.expect(&mut feed, 0, |call| call.answer == [2, 8, 5, 1])?;
    feed.inputs[0].drain(..8);
    c.expect(&mut feed, 24, |call| call.answer == [0, 8, 0, 0])
}

/// Writes a message place after place; gives the packets.
pub fn written(
    c: &mut Comparison<'_>,
    room: u64,
    wish: [u64; 4],
    message: &[u8],
) -> Compared<Vec<Vec<u8>>> {
    let mut packets = Vec::new();
    let mut place = 0;
    let mut call = Call::new(Operation::PacketWrite).inputs(&[message]);
    let [stream, id, sequence, ack] = wish;
    loop {
        call.lent = blank(room as usize);
        call.numbers = vec![room, LIMIT, stream, id, sequence, ack, place];
        c.expect(&mut call, 0, |_| true)?;
        packets.push(call.lent[..call.answer[0] as usize].to_vec());
        place = call.answer[1];
        if place == message.len() as u64 {
            return Ok(packets);
        }
    }
}

/// The message of the worked cases: its bytes count up.
fn counting(size: usize) -> Vec<u8> {
    (0..size).map(|place| place as u8).collect()
}

/// A row of slots.
type Row = [Slot; SLOTS];

/// A call of the receiver on a blank buffer, with answer sequence 9 and a blank answer buffer.
fn receiver(row: &Row) -> Call {
    Call::new(Operation::ReceiverAccept)
        .numbers(&[9])
        .state(&[LIMIT])
        .slots(row)
        .lent(blank(low_energy::buffer(LIMIT)))
        .reply(blank(8))
}

/// A slot that is open for an id, with last sequence and wish.
const fn open(id: u8, [total, held]: [u16; 2], sequence: u8, wanted: u8) -> Slot {
    Slot {
        opened: 1,
        id,
        sequence,
        wanted,
        total,
        held,
    }
}

const CLOSED: Slot = Slot {
    opened: 0,
    id: 0,
    sequence: 0,
    wanted: 0,
    total: 0,
    held: 0,
};
const IDLE: Row = [CLOSED; SLOTS];

/// A row with one slot that is not idle.
fn only(place: usize, slot: Slot) -> Row {
    let mut row = IDLE;
    row[place] = slot;
    row
}

/// Where the parts of the streams' first slots begin.
const OTA: usize = 4 * LIMIT as usize;
const ALEXA: usize = 8 * LIMIT as usize;

fn packets(c: &mut Comparison<'_>) -> Compared<()> {
    c.at = "P4".to_string();
    let message = counting(35);
    let made = written(c, 20, [6, 1, 0, 1], &message)?;
    let expected: Vec<Vec<u8>> = [
        ("61 00 00 00 23 0E", 0..14),
        ("61 14 11", 14..31),
        ("61 2A 04", 31..35),
    ]
    .into_iter()
    .map(|(header, part)| [bytes(header), message[part].to_vec()].concat())
    .collect();
    let mut call = receiver(&IDLE);
    c.hold(made == expected, "the three packets", &call)?;
    let answers = [
        ([0, 6, 1, 0, 0, 0, 0, 8], open(1, [35, 14], 0, 0)),
        ([0, 6, 1, 0, 0, 0, 0, 8], open(1, [35, 31], 1, 0)),
        ([1, 6, 1, 0, 35, 1, 0, 8], CLOSED),
    ];
    for (packet, (answer, slot)) in made.iter().zip(answers) {
        call.inputs[0] = packet.clone();
        c.expect(&mut call, 0, |call| {
            call.answer == answer && call.slots == only(8, slot)
        })?;
    }
    let kept = call.lent[ALEXA..ALEXA + 35] == message
        && call.lent[..ALEXA].iter().all(|&byte| byte == 0xCC)
        && call.lent[ALEXA + 35..].iter().all(|&byte| byte == 0xCC);
    c.hold(call.state == [LIMIT] && kept, "the message received", &call)?;

    let sizes = [
        ("P5", 490, 244, vec![238, 241, 11]),
        ("P6", 300, 262, vec![255, 45]),
        ("P6", 300, 263, vec![256, 44]),
    ];
    for (name, size, room, pieces) in sizes {
        c.at = format!("{name}, {size} bytes at room {room}");
        let message = counting(size);
        let mut place = 0;
        for (index, piece) in pieces.iter().enumerate() {
            let mut call = Call::new(Operation::PacketWrite)
                .numbers(&[room, LIMIT, 0, 0, 0, 0, place as u64])
                .inputs(&[&message])
                .lent(blank(room as usize));
            let header = if index == 0 { 6 } else { 3 } + usize::from(*piece > 255);
            let answer = [(header + piece) as u64, (place + piece) as u64];
            let extender = u8::from(*piece > 255);
            c.expect(&mut call, 0, |call| {
                call.answer == answer && call.lent[1] & 1 == extender
            })?;
            place += piece;
        }
        assert_eq!(place, size);
    }

    c.at = "P7".to_string();
    // OTA is open with id 4, total 9, one byte held, last sequence 15.
    let before = only(4, open(4, [9, 1], 15, 0));
    let mut call = receiver(&before).inputs(&[&bytes("24 04 02 AA BB")]);
    c.expect(&mut call, 0, |call| {
        call.answer == [0, 2, 4, 0, 0, 0, 0, 4]
            && call.slots == only(4, open(4, [9, 3], 0, 0))
            && call.lent[OTA..OTA + 4] == [0xCC, 0xAA, 0xBB, 0xCC]
    })?;
    let mut call = receiver(&before).inputs(&[&bytes("24 A4 02 AA BB")]);
    c.expect(&mut call, 10, |call| {
        call.slots == IDLE && call.lent.iter().all(|&byte| byte == 0xCC)
    })?;

    c.at = "P8".to_string();
    let cases = [
        (0, 1, "61 0E 00 02 01 00"),
        (0, 0, "61 0C 00 02 01 03"),
        // "any sequence"
        (11, 1, "61 BE 00 02 01 00"),
        (15, 0, "61 FC 00 02 01 03"),
    ];
    for (sequence, positive, packet) in cases {
        let packet = bytes(packet);
        let mut call = Call::new(Operation::AckWrite)
            .numbers(&[6, 1, sequence, positive])
            .lent(blank(9));
        c.expect(&mut call, 0, |call| wrote(call, &packet))?;
        let mut call = receiver(&before).inputs(&[&packet]);
        c.expect(&mut call, 0, |call| {
            call.answer == [3 - positive, 6, 1, sequence, 0, 0, 0, 0] && call.slots == before
        })?;
    }

    packet_limits(c)?;
    c.at = "P9".to_string();
    let made = written(c, 20, [0, 0, 0, 0], &[])?;
    let mut call = receiver(&IDLE).inputs(&[&[0; 6]]);
    c.hold(made == [[0; 6]], "six zero bytes", &call)?;
    c.expect(&mut call, 0, |call| {
        call.answer == [1, 0, 0, 0, 0, 0, 0, 0] && call.slots == IDLE
    })
}

/// No. 6: 13 before 17, 17 before 15, a message and a total as long as the limit, and a state whose
/// limit is none.
fn packet_limits(c: &mut Comparison<'_>) -> Compared<()> {
    c.at = "Low Energy at a limit".to_string();
    let cases = [
        (19, 0, 9, 0, 13),
        (20, 0, 9, 0, 17),
        (20, 65_536, 6, 0, 17),
        (20, u64::MAX, 6, 0, 17),
        (20, 65_535, 9, 0, 15),
        (20, 1, 6, 2, 15),
        (20, 2, 6, 2, 0),
    ];
    for (room, limit, stream, size, number) in cases {
        let mut call = Call::new(Operation::PacketWrite)
            .numbers(&[room, limit, stream, 1, 0, 0, 0])
            .inputs(&[&counting(size)])
            .lent(blank(20));
        c.expect(&mut call, number, |_| true)?;
    }
    for (limit, number) in [(0, 17), (1, 0), (65_535, 0), (65_536, 17), (u64::MAX, 17)] {
        let mut call = Call::new(Operation::ReceiverOpen).numbers(&[limit]);
        let left = if number == 0 { limit } else { 0 };
        c.expect(&mut call, number, |call| call.state == [left])?;
    }
    // The first of two bytes on the Alexa stream.
    let packet = bytes("61 00 00 00 02 01 AA");
    for (limit, number, slot) in [
        (2, 0, open(1, [2, 1], 0, 0)),
        (1, 6, CLOSED),
        (0, 1, CLOSED),
    ] {
        let mut call = receiver(&IDLE).state(&[limit]).inputs(&[&packet]);
        call.lent = blank(low_energy::buffer(limit));
        c.expect(&mut call, number, |call| {
            call.state == [limit] && call.slots == only(8, slot)
        })?;
    }
    Ok(())
}

fn messages(c: &mut Comparison<'_>) -> Compared<()> {
    c.at = "P10".to_string();
    for (command, error_code, message) in [(94, 0, "08 5E 4A 00"), (20, 3, "08 14 4A 02 08 03")] {
        let message = bytes(message);
        let mut call = Call::new(Operation::EnvelopeWrite)
            .numbers(&[command, 1, error_code, 0])
            .lent(blank(12));
        c.expect(&mut call, 0, |call| wrote(call, &message))?;
        let mut call = Call::new(Operation::EnvelopeRead).inputs(&[&message]);
        c.expect(&mut call, 0, |call| {
            call.answer == [command, 1, error_code, 0, 0, 0]
        })?;
    }
    c.at = "P11".to_string();
    let message = bytes("08 FF FF FF FF FF FF FF FF FF 01");
    let mut call = Call::new(Operation::EnvelopeRead).inputs(&[&message]);
    c.expect(&mut call, 0, |call| {
        call.answer == [u64::MAX, 0, 0, 0, 0, 0]
    })?;
    let mut call = Call::new(Operation::EnvelopeWrite)
        .numbers(&[u64::MAX, 0, 0, 0])
        .lent(blank(12));
    c.expect(&mut call, 0, |call| wrote(call, &message))
}

/// No. 13: S, N, T, transport 0, features 13 hex; members 3 and 28; limit 4,096, id 1, sequence 2.
fn replies(c: &mut Comparison<'_>) -> Compared<()> {
    c.at = "No. 13".to_string();
    let ask = |message: &str, room: u64, size: usize| {
        Call::new(Operation::ReplyWrite)
            .numbers(&[0x13, 0, 3, 28, room, LIMIT, 1, 2, 0])
            .inputs(&[&bytes(message), b"S", b"N", b"T"])
            .lent(blank(size))
    };
    let information = "01 20 00 00 12 12 08 14 4A 0E 1A 0C 0A 01 53 12 01 4E 1A 01 00 22 01 54";
    let sent = [
        ("08 14", 64, information),
        ("08 1C", 64, "01 20 00 00 09 09 08 1C 4A 05 E2 01 02 08 13"),
        ("08 5E", 64, "01 20 00 00 04 04 08 5E 4A 00"),
        ("", 64, "01 20 00 00 04 04 4A 02 08 03"),
        // At room 20 the first packet has 14 of the 18 bytes.
        (
            "08 14",
            20,
            "01 20 00 00 12 0E 08 14 4A 0E 1A 0C 0A 01 53 12 01 4E 1A 01 01 38 04 00 22 01 54",
        ),
        // A response gets none, whatever the room is.
        ("08 14 4A 00", 0, ""),
    ];
    for (message, room, joined) in sent {
        let joined = bytes(joined);
        let mut call = ask(message, room, 40);
        c.expect(&mut call, 0, |call| {
            wrote(call, &joined) && call.answer[1..] == [0, 0]
        })?;
        if let Some(less) = joined.len().checked_sub(1) {
            let mut call = ask(message, room, less);
            c.expect(&mut call, 14, |call| call.lent == blank(less))?;
        }
    }
    // The number that is refused by, with the place in the numbers and what stands there.
    let refused = [
        ("08 14 4A 01 FF", 4, 0, 30),
        ("08 14", 4, 19, 13),
        ("08 14", 5, 0, 17),
        ("08 14", 5, 17, 15),
        ("08 14", 6, 16, 15),
        ("08 14", 7, 16, 15),
        ("08 14", 2, 1, 15),
        ("08 1C", 3, 1, 15),
        ("08 14", 8, 1 << 31, 15),
        // What is not carried is not judged.
        ("08 14", 3, 1, 0),
        ("08 1C", 2, 1, 0),
        ("08 5E", 2, 1, 0),
        ("08 5E", 8, 1 << 31, 0),
    ];
    for (message, place, number, returned) in refused {
        let mut call = ask(message, 64, 40);
        call.numbers[place] = number;
        c.expect(&mut call, returned, |call| {
            returned == 0 || call.lent == blank(40)
        })?;
    }
    // 36 after 15 and before 14, with field and place; not where the strings are not carried.
    for (message, limit, returned, told) in [
        ("08 14", LIMIT, 36, [2, 1]),
        ("08 14", 18, 15, [0, 0]),
        ("08 1C", LIMIT, 14, [0, 0]),
    ] {
        let mut call = ask(message, 64, 0);
        call.numbers[5] = limit;
        call.inputs[2] = bytes("4E FF");
        c.expect(&mut call, returned, |call| {
            call.answer[0] == 0 && call.answer[1..] == told
        })?;
    }
    Ok(())
}

fn outbox(c: &mut Comparison<'_>) -> Compared<()> {
    c.at = "P12".to_string();
    let file = bytes("01 00 03 06 41 42");
    let mut call = Call::new(Operation::OutboxRecord)
        .numbers(&[1])
        .inputs(&[&file]);
    c.expect(&mut call, 0, |call| call.answer == [1, 6, 4, 2, 6, 0])?;
    call.numbers = vec![6];
    c.expect(&mut call, 0, |call| call.answer == [0; 6])?;
    let mut call = Call::new(Operation::OutboxWhole).inputs(&[&file]);
    c.expect(&mut call, 0, |call| call.answer == [0])?;
    let mut call = Call::new(Operation::OutboxRecord)
        .numbers(&[1])
        .inputs(&[&file[..5]]);
    c.expect(&mut call, 41, |call| call.answer == [0, 0, 0, 0, 0, 1])?;
    let mut call = Call::new(Operation::OutboxWhole).inputs(&[&file[..5]]);
    c.expect(&mut call, 41, |call| call.answer == [1])?;
    let mut lent = blank(8);
    lent[0] = 1;
    let mut call = Call::new(Operation::OutboxAppend)
        .numbers(&[1, 6])
        .inputs(&[b"AB"])
        .lent(lent);
    c.expect(&mut call, 0, |call| {
        call.answer == [6, 0] && call.lent.starts_with(&file) && call.lent[6..] == [0xCC, 0xCC]
    })?;

    c.at = "version 02".to_string();
    let mut call = Call::new(Operation::OutboxNew).lent(blank(2));
    c.expect(&mut call, 0, |call| wrote(call, &[2]))?;
    let file = bytes("02 00 00 00 03 06 41 42");
    let mut call = Call::new(Operation::OutboxRecord)
        .numbers(&[1])
        .inputs(&[&file]);
    c.expect(&mut call, 0, |call| call.answer == [1, 6, 6, 2, 8, 0])?;
    let mut lent = blank(9);
    lent[0] = 2;
    let mut call = Call::new(Operation::OutboxAppend)
        .numbers(&[1, 6])
        .inputs(&[b"AB"])
        .lent(lent);
    c.expect(&mut call, 0, |call| {
        call.answer == [8, 0] && call.lent.starts_with(&file) && call.lent[8..] == [0xCC]
    })?;
    for (file, number, place) in [
        ("02 00 00 00", 41, 1),
        ("02 00 01 00 01", 42, 0),
        ("02 00 01 00 00", 41, 1),
        ("03", 40, 0),
        ("", 40, 0),
    ] {
        let mut call = Call::new(Operation::OutboxWhole).inputs(&[&bytes(file)]);
        c.expect(&mut call, number, |call| call.answer == [place])?;
    }
    for (first, number) in [(3, 40), (2, 15), (1, 15)] {
        let mut lent = blank(9);
        lent[0] = first;
        let mut call = Call::new(Operation::OutboxAppend)
            .numbers(&[1, 9])
            .lent(lent);
        c.expect(&mut call, number, |call| call.answer == [0, 0])?;
    }
    Ok(())
}

/// "Slips we have seen".
fn slips(c: &mut Comparison<'_>) -> Compared<()> {
    c.at = "slip: waiting for F1 after a fresh F0".to_string();
    let stream = bytes("F0 02 00 07 11 F0 02 00 08 00 02 F1");
    feeds(c, &stream, &[(20, [0, 6, 0, 0]), (0, [2, 6, 8, 0])])?;

    c.at = "slip: summing the escaped payload".to_string();
    // F0 is F2 02 escaped, which would sum to F4 and give 00 F6.
    let right = bytes("F0 02 00 05 F2 02 00 F2 00 F1");
    let wrong = bytes("F0 02 00 05 F2 02 00 F6 F1");
    feeds(c, &right, &[(0, [2, 10, 5, 1])])?;
    feeds(c, &wrong, &[(25, [0, 9, 0, 0])])?;

    c.at = "slip: leaving the checksum unescaped".to_string();
    // 2 + EE is F0, which stands escaped in the checksum.
    let mut call = Call::new(Operation::FrameWrite)
        .numbers(&[1, LIMIT])
        .inputs(&[&[0xEE]])
        .lent(blank(20));
    let right = bytes("F0 02 00 01 EE 00 F2 02 F1");
    c.expect(&mut call, 0, |call| wrote(call, &right))?;
    feeds(c, &right, &[(0, [2, 9, 1, 1])])?;
    let wrong = bytes("F0 02 00 01 EE 00 F0 F1");
    feeds(c, &wrong, &[(20, [0, 7, 0, 0]), (21, [0, 1, 0, 0])])?;

    c.at = "slip: refusing an extender on a length of 200".to_string();
    let piece = counting(200);
    let packet = [bytes("65 01 00 00 C8 00 C8"), piece.clone()].concat();
    let mut call = receiver(&IDLE).inputs(&[&packet]);
    c.expect(&mut call, 0, |call| {
        call.answer == [1, 6, 5, 0, 200, 0, 0, 8] && call.lent[ALEXA..ALEXA + 200] == piece
    })?;
    let packet = [bytes("65 45 00 C8"), piece.clone()].concat();
    let mut call = receiver(&only(8, open(5, [300, 7], 3, 0))).inputs(&[&packet]);
    c.expect(&mut call, 0, |call| {
        call.answer == [0, 6, 5, 0, 0, 0, 0, 8]
            && call.slots == only(8, open(5, [300, 207], 4, 0))
            && call.lent[ALEXA + 7..ALEXA + 207] == piece
    })?;

    c.at = "slip: giving a first packet of 14 of 35 bytes as finished".to_string();
    let packet = [bytes("61 02 00 00 23 0E"), counting(14)].concat();
    let mut call = receiver(&IDLE).inputs(&[&packet]);
    c.expect(&mut call, 0, |call| {
        call.answer == [0, 6, 1, 0, 0, 0, 0, 8] && call.slots == only(8, open(1, [35, 14], 0, 1))
    })
}

/// No. 2: "An ACK is wanted if at least one accepted packet of the transaction carried the flag."
fn requests(c: &mut Comparison<'_>) -> Compared<()> {
    c.at = "No. 2: the flag on the first packet only".to_string();
    let mut call = receiver(&IDLE).inputs(&[&bytes("61 02 00 00 02 01 AA")]);
    c.expect(&mut call, 0, |call| {
        call.answer == [0, 6, 1, 0, 0, 0, 0, 8] && call.slots == only(8, open(1, [2, 1], 0, 1))
    })?;
    c.hold(call.reply == blank(8), "nothing is answered yet", &call)?;
    call.inputs[0] = bytes("61 18 01 BB");
    c.expect(&mut call, 0, |call| {
        call.answer == [1, 6, 1, 0, 2, 1, 0, 8] && call.slots == IDLE
    })?;
    let ack = bytes("61 9E 00 02 01 00 CC CC");
    c.hold(
        call.reply == ack,
        "No. 9: the ACK beside the message",
        &call,
    )?;

    c.at = "No. 2: what a slot remembers is 0 or 1, and 0 in an idle one".to_string();
    for place in 0..SLOTS {
        let slots = [CLOSED, open(3, [9, 2], 7, 0)];
        for (was, wanted, returned) in [(0, 1, 1), (0, 2, 1), (1, 0, 2), (1, 1, 2), (1, 2, 1)] {
            let mut row = only(place, slots[was]);
            row[place].wanted = wanted;
            // One byte: 2, unless the row is unlawful.
            let mut call = receiver(&row).inputs(&[&[0]]);
            c.expect(&mut call, returned, |call| call.slots == row)?;
        }
    }
    answers(c)?;
    four(c)?;
    rows(c)
}

/// No. 11 on a link of 64: one packet with one byte of the message for each line. "A first packet whose
/// id is open in its stream replaces that transaction; otherwise it takes the lowest idle slot".
fn four(c: &mut Comparison<'_>) -> Compared<()> {
    let mut call = receiver(&IDLE).state(&[64]);
    call.lent = blank(low_energy::buffer(64));
    // The packet, what is returned, and place and replaced.
    let cases = [
        ("03 00 00 00 02 01 A3", 0, [0, 0]),
        ("01 00 00 00 02 01 A1", 0, [1, 0]),
        ("02 02 00 00 02 01 A2", 0, [2, 0]),
        ("00 00 00 00 02 01 A0", 0, [3, 0]),
        ("04 00 00 00 02 01 A4", 18, [0, 0]),
        ("02 00 00 00 02 01 B2", 0, [2, 1]),
        // One that would finish at once, of one byte and of none; OTA has idle slots.
        ("09 02 00 00 01 01 A9", 18, [0, 0]),
        ("09 02 00 00 00 00", 18, [0, 0]),
        ("29 02 00 00 00 00", 0, [4, 0]),
        // 8 before 18, and 9 is for the other types.
        ("04 00 00 00 01 02 A4 A5", 8, [0, 0]),
        ("04 18 01 A4", 9, [0, 0]),
        // 10 and 11 make that slot idle alone, and the lowest idle one is taken.
        ("01 28 01 C1", 10, [0, 0]),
        ("03 14 01 C3", 11, [0, 0]),
        ("04 00 00 00 02 01 A4", 0, [0, 0]),
        ("01 18 01 C1", 9, [0, 0]),
        ("02 1A 01 C2", 0, [2, 0]),
    ];
    for (packet, returned, [place, replaced]) in cases {
        c.at = format!("No. 11: {packet}");
        call.inputs[0] = bytes(packet);
        let before = call.clone();
        c.expect(&mut call, returned, |call| {
            let told = returned != 0 || call.answer[6..] == [replaced, place];
            let kept = call.slots == before.slots && call.lent == before.lent;
            told && (kept || matches!(returned, 0 | 10 | 11))
        })?;
    }
    let mut row = IDLE;
    row[0] = open(4, [2, 1], 0, 0);
    row[3] = open(0, [2, 1], 0, 0);
    let mut left = blank(12 * 64);
    for (place, byte) in [(0, 0xA4), (64, 0xA1), (128, 0xB2), (129, 0xC2), (192, 0xA0)] {
        left[place] = byte;
    }
    let holds = call.slots == row && call.lent == left;
    c.hold(holds, "No. 11: the row and the buffer at the end", &call)
}

/// No. 11: "In a lawful state, besides, the row has twelve slots and no two open slots of a stream have
/// one id."
fn rows(c: &mut Comparison<'_>) -> Compared<()> {
    let slot = open(5, [2, 1], 0, 0);
    for (one, other) in (0..SLOTS).flat_map(|one| (0..one).map(move |other| (one, other))) {
        c.at = format!("No. 11: one id at places {other} and {one}");
        let mut row = only(one, slot);
        row[other] = open(5, [9, 3], 7, 1);
        // One byte: 2, unless the row is unlawful.
        let mut call = receiver(&row).inputs(&[&[0]]);
        let returned = if one / 4 == other / 4 { 1 } else { 2 };
        c.expect(&mut call, returned, |call| call.slots == row)?;
        // An idle slot has no id.
        let mut call = receiver(&only(one, slot)).inputs(&[&[0]]);
        c.expect(&mut call, 2, |_| true)?;
    }
    for length in [0, 1, 3, 11, 12, 13, 24] {
        c.at = format!("No. 11: a row of {length} slots");
        let mut call = receiver(&IDLE).inputs(&[&bytes("01 00 00 00 02 01 AA")]);
        call.slots.resize(length, CLOSED);
        let row = call.slots.clone();
        let returned = u64::from(length != SLOTS);
        c.expect(&mut call, returned, |call| {
            (call.slots == row) == (returned == 1)
        })?;
    }
    Ok(())
}

/// No. 9: "after 1, 15 for an answer sequence above 15 and 14 for an answer buffer under six bytes,
/// both before the packet is looked at"; "every other outcome leaves that buffer untouched".
fn answers(c: &mut Comparison<'_>) -> Compared<()> {
    let open = only(8, open(1, [9, 3], 0, 1));
    let unlawful = only(
        0,
        Slot {
            wanted: 1,
            ..CLOSED
        },
    );
    // One whole message that wants an ACK, one byte, and a last packet that would be refused by 10.
    let (whole, short, late) = ("61 02 00 00 01 01 AA", "61", "61 28 06 A0 A1 A2 A3 A4 A5");
    let cases: [(&Row, u64, usize, &str, u64); 14] = [
        (&unlawful, 16, 5, short, 1),
        (&unlawful, 0, 6, whole, 1),
        (&open, 16, 5, short, 15),
        (&open, 16, 6, whole, 15),
        (&open, 255, 8, whole, 15),
        (&open, 256, 8, whole, 15),
        (&open, u64::MAX, 8, late, 15),
        (&open, 15, 5, short, 14),
        (&open, 15, 0, whole, 14),
        (&open, 15, 5, late, 14),
        (&open, 15, 6, short, 2),
        (&open, 15, 6, late, 10),
        (&open, 15, 6, whole, 0),
        (&open, 0, 8, whole, 0),
    ];
    for (row, sequence, size, packet, returned) in cases {
        c.at = format!("No. 9: answer sequence {sequence}, {size} bytes, packet {packet}");
        let mut call = receiver(row).inputs(&[&bytes(packet)]).reply(blank(size));
        call.numbers[0] = sequence;
        let mut reply = blank(size);
        if returned == 0 {
            let ack = [0x61, (sequence as u8) << 4 | 0x0E, 0x00, 0x02, 0x01, 0x00];
            reply[..6].copy_from_slice(&ack);
        }
        let after = match returned {
            0 | 10 => &IDLE,
            _ => row,
        };
        c.expect(&mut call, returned, |call| {
            call.reply == reply
                && call.slots == *after
                && (returned == 0 || call.lent == blank(low_energy::buffer(LIMIT)))
        })?;
    }

    c.at = "No. 9: an ACK that arrives, and a message that wants none".to_string();
    for packet in [
        "61 0E 00 02 01 00",
        "61 0C 00 02 01 03",
        "61 00 00 00 01 01 AA",
    ] {
        let mut call = receiver(&IDLE).inputs(&[&bytes(packet)]);
        c.expect(&mut call, 0, |call| call.reply == blank(8))?;
    }
    Ok(())
}
