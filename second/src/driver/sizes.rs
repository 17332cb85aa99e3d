//! Wrong sizes and arguments out of range, of every call: rows and lent bytes a little too short
//! and too long, each argument at and past its edges, alone and several at once, so that the order
//! of the refusals shows.

use super::{edge, firmware, packets, Plan, EDGES};
use crate::classic;
use crate::comparison::{Compared, Comparison};
use crate::implementation::{Call, Operation, Slot};
use crate::low_energy::{self, SLOTS};
use crate::rng::Rng;

/// The limit of the receivers here.
const RECEIVED: u64 = 300;

pub fn run(c: &mut Comparison<'_>, rng: &mut Rng, plan: Plan) -> Compared<()> {
    for operation in Operation::ALL {
        c.at = format!("sizes of {}", operation.shape().name);
        rows(c, rng, operation)?;
        for _ in 0..plan.times(20_000) {
            let mut call = ordinary(rng, operation);
            disturb(rng, &mut call);
            c.run(&mut call)?;
        }
    }
    c.at = "each number at each edge".to_string();
    each_edge(c, rng)?;
    c.at = "every sequence byte".to_string();
    for byte in 0..=255 {
        c.run(&mut Call::new(Operation::NextSequence).numbers(&[byte]))?;
        let mut call = Call::new(Operation::FrameWrite)
            .numbers(&[byte, classic::LIMIT])
            .inputs(&[&[byte as u8]])
            .lent(vec![0; 16]);
        c.run(&mut call)?;
        let numbers = [byte, classic::LIMIT, 1];
        c.run(&mut Call::new(Operation::FrameBegin).numbers(&numbers))?;
    }
    c.at = "every byte in every state of the extractor".to_string();
    every_byte(c, rng)?;
    c.at = "every pair of first bytes".to_string();
    every_pair(c, rng)
}

/// A call with nothing wrong in it.
fn ordinary(rng: &mut Rng, operation: Operation) -> Call {
    let call = Call::new(operation);
    let stream = *rng.pick(&[0, 2, 6]);
    let size = rng.index(30);
    let text = rng.bytes(size);
    let limit = *rng.pick(&[33, 4_096, 4_096, 65_535]);
    match operation {
        Operation::ExtractorOpen => call.numbers(&[limit]),
        Operation::ExtractorStep => call
            .state(&[classic::LIMIT, 0, 0, 0])
            .numbers(&[rng.below(256)])
            .lent(rng.bytes(classic::buffer(classic::LIMIT))),
        Operation::ExtractorFeed => call
            .state(&[classic::LIMIT, 0, 0, 0])
            .inputs(&[&text])
            .lent(rng.bytes(classic::buffer(classic::LIMIT))),
        Operation::FrameWrite => call
            .numbers(&[rng.below(240), limit])
            .inputs(&[&text])
            .lent(rng.bytes(80)),
        Operation::FrameBegin => call.numbers(&[rng.below(240), limit, rng.below(limit + 1)]),
        Operation::FramePart => {
            let total = size as u64 + rng.below(4);
            let (stage, pending) = (rng.below(8), rng.below(4));
            call.state(&[limit, rng.below(240), total, 0, 2, stage, pending])
                .inputs(&[&text])
                .lent(rng.bytes(80))
        }
        Operation::NextSequence => call.numbers(&[rng.below(256)]),
        Operation::PacketWrite => {
            let room = rng.between(20, 512);
            call.numbers(&[
                room as u64,
                limit,
                stream,
                rng.below(16),
                rng.below(16),
                rng.below(2),
                0,
            ])
            .inputs(&[&text])
            .lent(rng.bytes(room))
        }
        Operation::AckWrite => call
            .numbers(&[stream, rng.below(16), rng.below(16), rng.below(2)])
            .lent(rng.bytes(6)),
        Operation::PacketRead => call
            .numbers(&[limit])
            .inputs(&[&[0x61, 0x02, 0, 0, 1, 1, 0xAA]]),
        Operation::ReceiverOpen => call.numbers(&[limit]),
        Operation::ReceiverAccept => {
            // An ACK, or a message that wants one.
            let ack = low_energy::acknowledgement(low_energy::Stream::Ota, 3, 9, true);
            let packet = if rng.once_in(2) {
                &ack
            } else {
                &[0x61, 0x02, 0, 0, 1, 1, 0xAA][..]
            };
            let room = rng.between(6, 9);
            call.state(&packets::idle(RECEIVED))
                .numbers(&[rng.below(16)])
                .inputs(&[packet])
                .lent(rng.bytes(low_energy::buffer(RECEIVED)))
                .reply(rng.bytes(room))
        }
        Operation::CapturePacket => call.numbers(&[1]).inputs(&[&[1, 0, 1, 9]]),
        Operation::CaptureJudge | Operation::CaptureWhy => {
            call.numbers(&[20, 300]).inputs(&[&[1, 0, 1, 9]])
        }
        Operation::ReportAdd => {
            let mut report = [0; 21];
            rng.fill_row(&mut report);
            // A row that no receiver takes.
            let row = [open(3, 0, 9); SLOTS];
            let message = [1, 0, 8, 0x61, 0x02, 0, 0, 3, 2, 0xAA, 0xBB, 0, 1, 9];
            call.state(&report)
                .numbers(&[RECEIVED])
                .inputs(&[&message])
                .slots(&row)
                .lent(rng.bytes(low_energy::buffer(RECEIVED)))
        }
        Operation::EnvelopeRead | Operation::ResponseRead => call.inputs(&[&[0x08, 0x05]]),
        Operation::InformationRead | Operation::FeaturesRead => call.inputs(&[&[]]),
        Operation::EnvelopeWrite => call
            .numbers(&[rng.below(100), rng.below(3), rng.below(4), 5])
            .inputs(&[&text])
            .lent(rng.bytes(80)),
        Operation::ResponseWrite => call
            .numbers(&[rng.below(4), 5])
            .inputs(&[&text])
            .lent(rng.bytes(80)),
        Operation::InformationWrite => {
            let transports: Vec<u64> = (0..rng.below(9)).map(|_| rng.below(2)).collect();
            call.numbers(&transports)
                .inputs(&[&text, &text, &text])
                .lent(rng.bytes(160))
        }
        Operation::FeaturesWrite => call.numbers(&[rng.draw(), rng.draw()]).lent(rng.bytes(22)),
        Operation::ReplyWrite => {
            let message = *rng.pick(&[&[0x08, 0x14][..], &[0x08, 0x1C], &[0x08, 0x5E], &[]]);
            let room = rng.below(493) + 20;
            let mut numbers = vec![rng.draw(), rng.draw(), 3, 28, room, 4_096];
            numbers.extend([rng.below(16), rng.below(16)]);
            numbers.extend((0..rng.below(9)).map(|_| rng.below(2)));
            call.numbers(&numbers)
                .inputs(&[message, b"S", b"N", b"T"])
                .lent(rng.bytes(80))
        }
        Operation::SegmentRead => {
            let message = [&[0x18, 0x07, 0x22, 0x40][..], &firmware::digits(rng)].concat();
            call.inputs(&[&message])
        }
        Operation::SegmentWrite => call
            .numbers(&[0, rng.draw() >> 32])
            .inputs(&[&text, &firmware::digits(rng)])
            .lent(rng.bytes(110)),
        Operation::ApplyRead => call.inputs(&[&[0x0A, 0x04, 0x1A, 0x00, 0x1A, 0x00, 0x10, 0x01]]),
        Operation::ApplyWrite => {
            let row = firmware::row(rng, text.len());
            call.numbers(&row).inputs(&[&text]).lent(rng.bytes(700))
        }
        Operation::FieldRead => call.numbers(&[0]).inputs(&[&[0x12, 0x02, 0x05, 0x06]]),
        Operation::OutboxNew => call.lent(rng.bytes(4)),
        Operation::OutboxAppend => {
            let mut lent = rng.bytes(60);
            lent[0] = 1;
            call.numbers(&[1, stream]).inputs(&[&text]).lent(lent)
        }
        Operation::OutboxRecord => call.numbers(&[1]).inputs(&[&[1, 0, 2, 6, 9]]),
        Operation::OutboxWhole => call.inputs(&[&[1, 0, 2, 6, 9]]),
        Operation::OutboxTo01 => call.inputs(&[&[2, 0, 0, 0, 2, 6, 9]]).lent(rng.bytes(8)),
        Operation::OutboxTo02 => call.inputs(&[&[1, 0, 2, 6, 9]]).lent(rng.bytes(8)),
        Operation::Text => call.inputs(&[&text]),
    }
}

/// Rows of all lengths near the right one, and lent bytes of all sizes near theirs.
fn rows(c: &mut Comparison<'_>, rng: &mut Rng, operation: Operation) -> Compared<()> {
    let shape = operation.shape();
    for _ in 0..8 {
        // A call that tells no numbers has no answer row.
        let lengths = match shape.answer.len() {
            0 => 0..=0,
            most => 0..=most + 3,
        };
        for length in lengths {
            let mut call = ordinary(rng, operation);
            call.answer.resize(length, 0);
            let expected = length != shape.answer.len();
            let returned = c.run(&mut call)?;
            if expected != (returned == 1) {
                return c.expect(&mut call, u64::from(expected), |_| true);
            }
        }
        if !shape.state.is_empty() {
            for length in 0..=shape.state.len() + 6 {
                let mut call = ordinary(rng, operation);
                call.state.resize(length, 0);
                c.run(&mut call)?;
            }
        }
        if shape.slots > 0 {
            for length in 0..=shape.slots + 3 {
                let mut call = ordinary(rng, operation);
                call.slots.resize(length, Slot::default());
                let expected = u64::from(length != shape.slots);
                c.expect(&mut call, expected, |_| true)?;
            }
        }
        let call = ordinary(rng, operation);
        let right = call.lent.len();
        for size in (0..8).chain(right.saturating_sub(8)..=right + 8) {
            let mut call = call.clone();
            call.lent.resize(size, 0x99);
            c.run(&mut call)?;
        }
        if shape.reply != "nothing" {
            for size in 0..10 {
                let mut call = ordinary(rng, operation);
                call.reply.resize(size, 0x99);
                c.expect(&mut call, if size < 6 { 14 } else { 0 }, |_| true)?;
            }
        }
    }
    Ok(())
}

/// Makes one thing or a few of a call wrong, or moves them to an edge.
fn disturb(rng: &mut Rng, call: &mut Call) {
    for _ in 0..rng.between(1, 3) {
        match rng.below(8) {
            0..=3 if !call.numbers.is_empty() => {
                let place = rng.index(call.numbers.len());
                call.numbers[place] = match call.operation {
                    // One byte by its type.
                    Operation::ExtractorStep | Operation::NextSequence => edge(rng) & 255,
                    _ => edge(rng),
                };
            }
            4 if !call.state.is_empty() => {
                let place = rng.index(call.state.len());
                call.state[place] = edge(rng);
            }
            5 if !call.inputs.is_empty() => {
                let place = rng.index(call.inputs.len());
                let size = match rng.below(12) {
                    0 => *rng.pick(&[4_095, 4_096, 4_097, 5_000, 65_535, 65_536]),
                    1 | 2 => rng.index(600),
                    _ => rng.index(30),
                };
                call.inputs[place] = rng.bytes(size);
            }
            6 => {
                let size = match rng.below(6) {
                    0 => *rng.pick(&[0, 1, 4_097, 4_098, 4_099, 4_105, 12_287, 12_288, 12_289]),
                    1 => rng.index(600),
                    2 => call.lent.len() + 1,
                    _ => call.lent.len().saturating_sub(rng.index(8)),
                };
                call.lent.resize(size, 0x88);
            }
            7 if call.operation == Operation::ReceiverAccept && rng.once_in(2) => {
                let size = rng.index(10);
                call.reply.resize(size, 0x88);
            }
            7 if !call.slots.is_empty() => {
                let place = rng.index(call.slots.len());
                set_number(&mut call.slots[place], rng.index(6), edge(rng));
            }
            7 if call.operation == Operation::InformationWrite => {
                let count = rng.index(12);
                call.numbers.resize(count, 1);
            }
            7 if call.operation == Operation::ReplyWrite => {
                let count = rng.index(12);
                call.numbers.resize(8 + count, 1);
            }
            7 if call.operation == Operation::ApplyWrite && rng.once_in(4) => {
                let length = rng.between(55, 59);
                call.numbers.resize(length, 0);
            }
            7 if rng.once_in(10) && !call.answer.is_empty() => {
                let length = rng.index(call.answer.len() + 2);
                call.answer.resize(length, 0);
            }
            7 if rng.once_in(10) => {
                let length = rng.index(call.state.len() + 2);
                call.state.resize(length, 0);
            }
            _ => {}
        }
    }
}

/// Each number of each row, alone, at each edge: of the states, lawful otherwise, and of what is
/// given, in range otherwise.
fn each_edge(c: &mut Comparison<'_>, rng: &mut Rng) -> Compared<()> {
    let states: [(Operation, &[&[u64]]); 3] = [
        (
            Operation::ExtractorStep,
            &[
                &[4_096, 0, 0, 0],
                &[4_096, 3, 0, 0],
                &[4_096, 4, 7, 3],
                &[4_096, 5, 7, 4_098],
            ],
        ),
        (
            Operation::ExtractorFeed,
            &[
                &[4_096, 0, 0, 0],
                &[4_096, 3, 0, 0],
                &[4_096, 4, 7, 3],
                &[4_096, 5, 7, 4_098],
            ],
        ),
        (
            Operation::FramePart,
            &[
                &[4_096, 7, 30, 0, 2, 0, 0],
                &[4_096, 7, 4_096, 4_000, 0xF0F1, 4, 3],
                &[30, 7, 30, 0, 2, 7, 0],
                &[65_535, 7, 65_535, 65_500, 0xF0F1, 4, 3],
            ],
        ),
    ];
    each_edge_of_slots(c, rng)?;
    for (operation, states) in states {
        for state in states {
            for place in 0..state.len() {
                let near = [state[place].wrapping_sub(1), state[place] + 1];
                for &number in EDGES.iter().chain(&near) {
                    let mut call = ordinary(rng, operation).state(state);
                    call.state[place] = number;
                    c.run(&mut call)?;
                }
            }
        }
    }
    for operation in Operation::ALL {
        if matches!(
            operation,
            Operation::ExtractorStep | Operation::NextSequence
        ) {
            // Every byte is given elsewhere.
            continue;
        }
        for place in 0..ordinary(rng, operation).numbers.len() {
            for &number in EDGES {
                // Twice, as the rest is by chance.
                for _ in 0..2 {
                    let mut call = ordinary(rng, operation);
                    if let Some(cell) = call.numbers.get_mut(place) {
                        *cell = number;
                    }
                    c.run(&mut call)?;
                }
            }
        }
    }
    Ok(())
}

/// A slot's number at a place, in the order of its fields.
fn set_number(slot: &mut Slot, place: usize, number: u64) {
    match place {
        0 => slot.opened = number as u8,
        1 => slot.id = number as u8,
        2 => slot.sequence = number as u8,
        3 => slot.wanted = number as u8,
        4 => slot.total = number as u16,
        _ => slot.held = number as u16,
    }
}

/// The limit, and each number of each slot, alone, at each edge: of a row that is idle, and of one with
/// every slot open.
fn each_edge_of_slots(c: &mut Comparison<'_>, rng: &mut Rng) -> Compared<()> {
    for &number in EDGES {
        let mut call = ordinary(rng, Operation::ReceiverAccept).state(&[number]);
        c.run(&mut call)?;
    }
    for row in [[Slot::default(); SLOTS], [open(0, 9, 2); SLOTS]] {
        let mut row = row;
        for (place, slot) in row.iter_mut().enumerate() {
            slot.id = slot.opened * place as u8;
        }
        let near = [0, 1, 2, 3, 8, 10, RECEIVED - 1, RECEIVED, RECEIVED + 1];
        for (place, number) in (0..SLOTS).flat_map(|slot| (0..6).map(move |at| (slot, at))) {
            for &edge in EDGES.iter().chain(&near) {
                let mut call = ordinary(rng, Operation::ReceiverAccept).slots(&row);
                set_number(&mut call.slots[place], number, edge);
                c.run(&mut call)?;
            }
        }
    }
    Ok(())
}

/// A slot that is open for an id, with last sequence 7.
fn open(id: u8, total: u16, held: u16) -> Slot {
    Slot {
        opened: 1,
        id,
        sequence: 7,
        wanted: 0,
        total,
        held,
    }
}

/// Every byte, as a step and as a feed, in each state that differs.
fn every_byte(c: &mut Comparison<'_>, rng: &mut Rng) -> Compared<()> {
    let mut states = Vec::new();
    for limit in [1, 2, 4_096] {
        for phase in 0..=3 {
            states.push([limit, phase, 0, 0]);
        }
        for phase in [4, 5] {
            for held in [0, 1, 2, 3, limit, limit + 1, limit + 2] {
                states.push([limit, phase, 0x11, held]);
            }
        }
    }
    for state in states {
        for byte in 0..=255u8 {
            for right in [false, true] {
                let mut lent = rng.bytes(classic::buffer(state[0]));
                let held = state[3] as usize;
                if let (true, Some((payload, sum))) = (right, lent[..held].split_last_chunk_mut()) {
                    *sum = classic::checksum(payload).to_be_bytes();
                }
                let mut step = Call::new(Operation::ExtractorStep)
                    .state(&state)
                    .numbers(&[u64::from(byte)])
                    .lent(lent.clone());
                c.run(&mut step)?;
                let mut feed = Call::new(Operation::ExtractorFeed)
                    .state(&state)
                    .inputs(&[&[byte]])
                    .lent(lent);
                c.run(&mut feed)?;
            }
        }
    }
    Ok(())
}

/// Every byte 0 and byte 1 of a packet, at several lengths, over a row in which control has two open slots,
/// one that wants an ACK, OTA all four, and Alexa one.
fn every_pair(c: &mut Comparison<'_>, rng: &mut Rng) -> Compared<()> {
    let mut row = [Slot::default(); SLOTS];
    row[0] = open(3, 9, 2);
    row[2] = open(8, 3, 2);
    row[2].wanted = 1;
    for (slot, id) in row[4..8].iter_mut().zip([5, 1, 15, 0]) {
        *slot = open(id, 5, 4);
    }
    row[9] = open(12, 5, 4);
    let lent = rng.bytes(low_energy::buffer(RECEIVED));
    let mut call = Call::new(Operation::ReceiverAccept)
        .state(&packets::idle(RECEIVED))
        .lent(lent);
    let reply = rng.bytes(7);
    for zeroth in 0..=255u8 {
        for first in 0..=255u8 {
            let tail: &[&[u8]] = match first >> 2 & 3 {
                0 => &[&[0, 0, 3, 1, 0xAA], &[0, 0, 1, 0, 1, 0xAA]],
                3 => &[&[0, 2, 1, 0], &[0, 2, 1, 3]],
                _ => &[&[1, 0xAA], &[0, 1, 0xAA]],
            };
            for tail in tail {
                call.slots = row.to_vec();
                call.numbers[0] = u64::from(zeroth ^ first) & 15;
                call.reply.clone_from(&reply);
                call.inputs[0] = [&[zeroth, first], *tail].concat();
                c.run(&mut call)?;
            }
        }
    }
    Ok(())
}
