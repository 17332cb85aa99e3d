//! The face of the model: every operation on rows of numbers and byte slices.
//!
//! All that is a convention and not the paper's stands here: the order of the rows, the numbers of
//! outcomes, signed numbers in 64 bits, and what an answer row holds after a refusal.
//!
//! - A row of the wrong length, and numbers that no state can have, are refused by 1, and nothing
//!   changes: neither state, lent bytes nor answer. Only `feed` tells then that 0 bytes were used,
//!   where its answer row has the right length.
//! - Every other call writes the whole answer row. After a refusal it is 0 throughout, but for what
//!   the paper tells then: the number used by `feed`, the place that goes with 41, and of a
//!   capture with 42, the field that goes with 50, and the places of a text.
//! - Signed 32-bit numbers stand in two's complement, extended to 64 bits. A number that is no such
//!   one is out of a writer's range, 15; so is an unsigned one above 32 bits, and a wish other than 0
//!   or 1.

use crate::classic::{self, Decided, Extractor, Next, Outcome, Parts, Standing};
use crate::control::{self, Envelope, Features, Given, Information, Member, Payload, Response};
use crate::implementation::{Implementation, Lent, Operation, Slot};
use crate::judge;
use crate::low_energy::{self, Accepted, Open, Part, Receiver, Reply, Slots, Stream, Wish};
use crate::outbox::{self, Broken, Record, Version, ONE, TWO};
use crate::refusal::{self, Refusal};
use crate::reply::{self, Own};
use crate::report::{self, Costs, Report, NUMBERS};
use crate::text;
use std::ops::Range;

pub mod firmware;

/// The model behind its face.
pub struct Model;

impl Implementation for Model {
    fn name(&self) -> &str {
        "second"
    }

    fn call(
        &self,
        operation: Operation,
        numbers: &[u64],
        inputs: &[Vec<u8>],
        state: &mut [u64],
        lent: Lent<'_>,
        answer: &mut [u64],
    ) -> u64 {
        let Lent {
            slots,
            bytes: lent,
            reply,
        } = lent;
        match operation {
            Operation::ExtractorOpen => extractor_open(numbers[0], state),
            Operation::ExtractorStep => extractor_step(state, lent, numbers[0] as u8, answer),
            Operation::ExtractorFeed => extractor_feed(state, lent, &inputs[0], answer),
            Operation::FrameWrite => frame_write(numbers[0], numbers[1], &inputs[0], lent, answer),
            Operation::FrameBegin => frame_begin([numbers[0], numbers[1], numbers[2]], state),
            Operation::FramePart => frame_part(state, &inputs[0], lent, answer),
            Operation::NextSequence => next_sequence(numbers[0] as u8, answer),
            Operation::PacketWrite => {
                let [room, limit, stream, id, sequence, ack, place] = numbers else {
                    panic!("seven numbers")
                };
                let wish = [*stream, *id, *sequence, *ack];
                packet_write([*room, *limit], wish, &inputs[0], *place, lent, answer)
            }
            Operation::AckWrite => {
                let [stream, id, sequence, positive] = numbers else {
                    panic!("four numbers")
                };
                ack_write([*stream, *id, *sequence, *positive], lent, answer)
            }
            Operation::PacketRead => packet_read(&inputs[0], numbers[0], answer),
            Operation::ReceiverOpen => receiver_open(numbers[0], state),
            Operation::ReceiverAccept => {
                let reply = Reply {
                    sequence: numbers[0],
                    buffer: reply,
                };
                receiver_accept(state, slots, lent, &inputs[0], reply, answer)
            }
            Operation::CapturePacket => capture_packet(&inputs[0], numbers[0], answer),
            Operation::CaptureJudge => capture_judge(&inputs[0], numbers[0], numbers[1], answer),
            Operation::CaptureWhy => capture_why(&inputs[0], numbers[0], numbers[1], answer),
            Operation::ReportAdd => report_add(state, numbers[0], slots, lent, &inputs[0], answer),
            Operation::EnvelopeRead => envelope_read(&inputs[0], answer),
            Operation::EnvelopeWrite => {
                let [command, payload, error_code, field] = numbers else {
                    panic!("four numbers")
                };
                let numbers = [*command, *payload, *error_code, *field];
                envelope_write(numbers, &inputs[0], lent, answer)
            }
            Operation::ResponseRead => response_read(&inputs[0], answer),
            Operation::ResponseWrite => {
                response_write(numbers[0], numbers[1], &inputs[0], lent, answer)
            }
            Operation::InformationRead => information_read(&inputs[0], answer),
            Operation::InformationWrite => {
                let [serial_number, name, device_type] = inputs else {
                    panic!("three inputs")
                };
                information_write(serial_number, name, device_type, numbers, lent, answer)
            }
            Operation::FeaturesRead => features_read(&inputs[0], answer),
            Operation::FeaturesWrite => features_write(numbers[0], numbers[1], lent, answer),
            Operation::ReplyWrite => {
                let ([message, serial_number, name, device_type], Some((numbers, transports))) =
                    (inputs, numbers.split_first_chunk())
                else {
                    panic!("four inputs, eight numbers and the transports")
                };
                let inputs = [message, serial_number, name, device_type].map(|bytes| &bytes[..]);
                reply_write(*numbers, transports, inputs, lent, answer)
            }
            Operation::SegmentRead => firmware::segment_read(&inputs[0], answer),
            Operation::SegmentWrite => {
                let ([name, signature], [offset, size]) = (inputs, numbers) else {
                    panic!("two inputs, two numbers")
                };
                firmware::segment_write(name, *offset, *size, signature, lent, answer)
            }
            Operation::ApplyRead => firmware::apply_read(&inputs[0], answer),
            Operation::ApplyWrite => firmware::apply_write(numbers, &inputs[0], lent, answer),
            Operation::FieldRead => firmware::field_read(&inputs[0], numbers[0], answer),
            Operation::OutboxNew => outbox_new(lent, answer),
            Operation::OutboxAppend => {
                outbox_append(lent, numbers[0], numbers[1], &inputs[0], answer)
            }
            Operation::OutboxRecord => outbox_record(&inputs[0], numbers[0], answer),
            Operation::OutboxWhole => outbox_whole(&inputs[0], answer),
            Operation::OutboxTo01 => outbox_write_as(ONE, &inputs[0], lent, answer),
            Operation::OutboxTo02 => outbox_write_as(TWO, &inputs[0], lent, answer),
            Operation::Text => text_places(&inputs[0], answer),
        }
    }
}

/// A refusal with the numbers that go with it, each at its place in the answer row.
struct Refused(Refusal, Vec<(usize, u64)>);

impl From<Refusal> for Refused {
    fn from(refusal: Refusal) -> Refused {
        Refused(refusal, Vec::new())
    }
}

/// Does the work, lays what it tells into the answer row, and gives what the function returns. A
/// row of another length is refused before anything can change.
fn ask<const N: usize>(
    answer: &mut [u64],
    work: impl FnOnce() -> Result<[u64; N], Refused>,
) -> u64 {
    if answer.len() != N {
        return Refusal::Lent.number();
    }
    match work() {
        Ok(row) => {
            answer.copy_from_slice(&row);
            0
        }
        Err(Refused(Refusal::Lent, told)) if told.is_empty() => Refusal::Lent.number(),
        Err(Refused(refusal, told)) => {
            answer.fill(0);
            for (place, number) in told {
                answer[place] = number;
            }
            refusal.number()
        }
    }
}

fn wide(number: usize) -> u64 {
    number as u64
}

/// A signed number in a row.
pub fn signed_out(number: i32) -> u64 {
    i64::from(number) as u64
}

/// A signed number from a row.
fn signed_in(number: u64) -> Result<i32, Refusal> {
    i32::try_from(number as i64).map_err(|_| Refusal::Argument)
}

/// A wish from a row.
fn wish_in(number: u64) -> Option<bool> {
    match number {
        0 => Some(false),
        1 => Some(true),
        _ => None,
    }
}

/// Four bits from a row.
fn four_bits_in(number: u64) -> Option<u8> {
    u8::try_from(number).ok().filter(|&number| number < 16)
}

/// `limit, phase, sequence, held`: phases are 0 outside, 1 to 3 before packet id, error id and
/// sequence byte, 4 in the body, 5 after F2.
fn extractor_in(row: &[u64]) -> Option<Extractor> {
    let [limit, phase, sequence, held] = *row else {
        return None;
    };
    let standing = match (phase, sequence, held) {
        (0, 0, 0) => Standing::Outside,
        (1, 0, 0) => Standing::PacketId,
        (2, 0, 0) => Standing::ErrorId,
        (3, 0, 0) => Standing::Sequence,
        (4 | 5, _, _) => Standing::Body {
            sequence: sequence.try_into().ok()?,
            held: held.try_into().ok()?,
            escape: phase == 5,
        },
        _ => return None,
    };
    Some(Extractor { limit, standing }).filter(|state| state.is_lawful())
}

fn extractor_out(state: Extractor) -> [u64; 4] {
    let [phase, sequence, held] = match state.standing {
        Standing::Outside => [0, 0, 0],
        Standing::PacketId => [1, 0, 0],
        Standing::ErrorId => [2, 0, 0],
        Standing::Sequence => [3, 0, 0],
        Standing::Body {
            sequence,
            held,
            escape,
        } => [4 + u64::from(escape), u64::from(sequence), wide(held)],
    };
    [state.limit, phase, sequence, held]
}

/// No answer; the state goes out only. 17 leaves it.
pub fn extractor_open(limit: u64, state: &mut [u64]) -> u64 {
    set_out(state, Extractor::open(limit).map(extractor_out))
}

/// A call whose state goes out only: a refusal leaves it.
fn set_out<const N: usize>(state: &mut [u64], made: Result<[u64; N], Refusal>) -> u64 {
    if state.len() != N {
        return Refusal::Lent.number();
    }
    match made {
        Ok(row) => {
            state.copy_from_slice(&row);
            0
        }
        Err(refusal) => refusal.number(),
    }
}

/// State `limit, phase, sequence, held`; answer `outcome, sequence, length` with outcome 0 skipped,
/// 1 taken, 2 frame.
pub fn extractor_step(state: &mut [u64], buffer: &mut [u8], byte: u8, answer: &mut [u64]) -> u64 {
    ask(answer, || {
        let (after, told) = extractor_in(state).ok_or(Refusal::Lent)?.step(buffer, byte);
        state.copy_from_slice(&extractor_out(after));
        Ok(match told? {
            Outcome::Skipped => [0, 0, 0],
            Outcome::Taken => [1, 0, 0],
            Outcome::Frame { sequence, length } => [2, u64::from(sequence), wide(length)],
        })
    })
}

/// State as for a step; answer `outcome, used, sequence, length` with outcome 0 all used, 2 frame.
/// After a refusal it is `0, used, 0, 0`, with 0 used under 1.
pub fn extractor_feed(
    state: &mut [u64],
    buffer: &mut [u8],
    bytes: &[u8],
    answer: &mut [u64],
) -> u64 {
    ask(answer, || {
        let (after, used, decided) = extractor_in(state)
            .ok_or_else(|| Refused(Refusal::Lent, vec![(1, 0)]))?
            .feed(buffer, bytes);
        state.copy_from_slice(&extractor_out(after));
        match decided {
            Decided::AllUsed => Ok([0, wide(used), 0, 0]),
            Decided::Frame { sequence, length } => {
                Ok([2, wide(used), u64::from(sequence), wide(length)])
            }
            Decided::Refused(refusal) => Err(Refused(refusal, vec![(1, wide(used))])),
        }
    })
}

/// A sequence as a number: one that is no byte is out of range, as a mark is.
fn sequence_in(sequence: u64) -> u8 {
    sequence.try_into().unwrap_or(classic::END)
}

/// Answer `written`.
pub fn frame_write(
    sequence: u64,
    limit: u64,
    payload: &[u8],
    output: &mut [u8],
    answer: &mut [u64],
) -> u64 {
    ask(answer, || {
        let written = classic::write_frame(sequence_in(sequence), limit, payload, output)?;
        Ok([wide(written)])
    })
}

/// `limit, sequence, total, taken, sum, stage, pending`: stages 0 to 3 are the four bytes before the
/// payload, 4 the payload with the checksum's first byte after it, 5 its second byte, 6 the end
/// mark, 7 nothing; pending is 0 for none, 1 to 3 for the second byte of F0, F1, F2.
fn parts_in(row: &[u64]) -> Option<Parts> {
    let [limit, sequence, total, taken, sum, stage, pending] = *row else {
        return None;
    };
    Some(Parts {
        limit,
        sequence: sequence.try_into().ok()?,
        total,
        taken,
        sum: sum.try_into().ok()?,
        next: match stage {
            0..=3 => Next::Header(stage as u8),
            4 => Next::Payload,
            5 => Next::LastSum,
            6 => Next::End,
            7 => Next::Nothing,
            _ => return None,
        },
        split: match pending {
            0 => None,
            1 => Some(classic::START),
            2 => Some(classic::END),
            3 => Some(classic::ESCAPE),
            _ => return None,
        },
    })
}

fn parts_out(parts: Parts) -> [u64; 7] {
    let stage = match parts.next {
        Next::Header(place) => u64::from(place),
        Next::Payload => 4,
        Next::LastSum => 5,
        Next::End => 6,
        Next::Nothing => 7,
    };
    let pending = parts
        .split
        .map_or(0, |mark| u64::from(mark - classic::START) + 1);
    [
        parts.limit,
        u64::from(parts.sequence),
        parts.total,
        parts.taken,
        u64::from(parts.sum),
        stage,
        pending,
    ]
}

/// No answer; the state goes out only. 17 and 15 leave it.
pub fn frame_begin([sequence, limit, total]: [u64; 3], state: &mut [u64]) -> u64 {
    let begun = Parts::begin(sequence_in(sequence), limit, total);
    set_out(state, begun.map(parts_out))
}

/// Answer `taken, written, ended`.
pub fn frame_part(state: &mut [u64], payload: &[u8], output: &mut [u8], answer: &mut [u64]) -> u64 {
    ask(answer, || {
        let (after, told) = parts_in(state).ok_or(Refusal::Lent)?.write(payload, output);
        let told = told?;
        state.copy_from_slice(&parts_out(after));
        Ok([wide(told.taken), wide(told.written), u64::from(told.ended)])
    })
}

/// Answer `next`.
pub fn next_sequence(sequence: u8, answer: &mut [u64]) -> u64 {
    ask(answer, || Ok([u64::from(classic::next_sequence(sequence))]))
}

/// `stream, id, sequence, wish`, if they are in their ranges.
fn wish_row_in(row: [u64; 4]) -> Option<Wish> {
    let [stream, id, sequence, ack] = row;
    Some(Wish {
        stream: Stream::of(stream)?,
        id: four_bits_in(id)?,
        sequence: four_bits_in(sequence)?,
        ack: wish_in(ack)?,
    })
}

/// Answer `written, next place`.
pub fn packet_write(
    [room, limit]: [u64; 2],
    wish: [u64; 4],
    message: &[u8],
    place: u64,
    output: &mut [u8],
    answer: &mut [u64],
) -> u64 {
    ask(answer, || {
        let wish = wish_row_in(wish);
        let (written, next) = low_energy::write_packet(room, limit, wish, message, place, output)?;
        Ok([wide(written), wide(next)])
    })
}

/// Answer `written`.
pub fn ack_write(wish: [u64; 4], output: &mut [u8], answer: &mut [u64]) -> u64 {
    ask(answer, || {
        let wish = wish_row_in(wish).ok_or(Refusal::Argument)?;
        let made = low_energy::acknowledgement(wish.stream, wish.id, wish.sequence, wish.ack);
        let written = crate::refusal::deliver(&made, output)?;
        Ok([wide(written)])
    })
}

/// Answer `end, stream, id, sequence, kind, ack, extended, total, start, length`: the type as on the wire, 0 for what an ACK
/// or NACK has not.
pub fn packet_read(bytes: &[u8], limit: u64, answer: &mut [u64]) -> u64 {
    ask(answer, || {
        let (whole, packet) = low_energy::front(limit, bytes)?;
        let (kind, total, piece) = match packet.part {
            Part::First { total, piece } => (0, total, Some(piece)),
            Part::Continuation { piece } => (1, 0, Some(piece)),
            Part::Last { piece } => (2, 0, Some(piece)),
            Part::Acknowledgement => (3, 0, None),
        };
        // The payload is what a packet ends with.
        let length = piece.map_or(0, <[u8]>::len);
        let start = piece.map_or(0, |piece| whole.len() - piece.len());
        Ok([
            wide(whole.len()),
            u64::from(packet.stream.number()),
            u64::from(packet.id),
            u64::from(packet.sequence),
            kind,
            u64::from(packet.flag),
            u64::from(whole[1] & 1),
            wide(total),
            wide(start),
            wide(length),
        ])
    })
}

/// "a lawful idle slot's numbers are all 0", and opened and wanted are 0 or 1.
fn slot_in(slot: &Slot) -> Option<Option<Open>> {
    let open = Open {
        id: slot.id,
        total: slot.total.into(),
        held: slot.held.into(),
        sequence: slot.sequence,
        wanted: slot.wanted == 1,
    };
    match (slot.opened, slot.wanted) {
        (0, 0) if *slot == Slot::default() => Some(None),
        (1, 0 | 1) => Some(Some(open)),
        _ => None,
    }
}

fn slot_out(slot: Option<Open>) -> Slot {
    slot.map_or(Slot::default(), |open| Slot {
        opened: 1,
        id: open.id,
        sequence: open.sequence,
        wanted: open.wanted.into(),
        total: open.total as u16,
        held: open.held as u16,
    })
}

/// The state is the limit alone; "In a lawful state, besides, the row has twelve slots".
fn receiver_in(state: &[u64], slots: &[Slot]) -> Option<Receiver> {
    let &[limit] = state else {
        return None;
    };
    let slots: Vec<Option<Open>> = slots.iter().map(slot_in).collect::<Option<_>>()?;
    let slots: Slots = slots.try_into().ok()?;
    Some(Receiver { limit, slots }).filter(|state| state.is_lawful())
}

/// No answer; the state goes out only. 17 leaves it. The row of slots is no part of it: all 0, it is idle.
pub fn receiver_open(limit: u64, state: &mut [u64]) -> u64 {
    set_out(
        state,
        Receiver::open(limit).map(|receiver| [receiver.limit]),
    )
}

/// Answer `outcome, stream, id, sequence, total, ack wanted, replaced, place` with outcome 0 a piece held
/// and more to come, 1 finished, 2 ACK, 3 NACK. The sequence is the packet's own and told with 2 and 3
/// only, total and ACK wanted with 1 only, replaced and place with 0 and 1 only; else they are 0. An answer
/// sequence of any size above 15 is 15. The state, the limit alone, stays.
pub fn receiver_accept(
    state: &[u64],
    slots: &mut [Slot],
    buffer: &mut [u8],
    packet: &[u8],
    reply: Reply,
    answer: &mut [u64],
) -> u64 {
    ask(answer, || {
        let before = receiver_in(state, slots).ok_or(Refusal::Lent)?;
        let (after, told) = low_energy::accept(before, buffer, packet, reply);
        slots.copy_from_slice(&after.slots.map(slot_out));
        Ok(accepted_out(told?))
    })
}

fn accepted_out(accepted: Accepted) -> [u64; 8] {
    let of = |stream: Stream| u64::from(stream.number());
    match accepted {
        Accepted::Held {
            place,
            stream,
            id,
            replaced,
        } => {
            let replaced = u64::from(replaced);
            [0, of(stream), id.into(), 0, 0, 0, replaced, wide(place)]
        }
        Accepted::Finished {
            place,
            stream,
            id,
            total,
            ack_wanted,
            replaced,
        } => [
            1,
            of(stream),
            id.into(),
            0,
            wide(total),
            ack_wanted.into(),
            replaced.into(),
            wide(place),
        ],
        Accepted::Acknowledgement {
            stream,
            id,
            sequence,
            positive,
        } => {
            let outcome = if positive { 2 } else { 3 };
            [outcome, of(stream), id.into(), sequence.into(), 0, 0, 0, 0]
        }
    }
}

/// `start, length`
fn part_out(part: &Range<usize>) -> [u64; 2] {
    [wide(part.start), wide(part.len())]
}

/// `field, start, length`, all 0 for none.
fn member_out(member: Option<&Member>) -> [u64; 3] {
    member.map_or([0; 3], |member| {
        let [start, length] = part_out(&member.part);
        [member.field, start, length]
    })
}

/// Answer `command, payload, error_code, field, start, length` with payload 0 none, 1 a response,
/// 2 another member. The last three are the member's, or those of the response's payload.
pub fn envelope_read(message: &[u8], answer: &mut [u64]) -> u64 {
    ask(answer, || {
        let told = Envelope::read(message)?;
        let (payload, error_code, member) = match &told.payload {
            Payload::None => (0, 0, None),
            Payload::Response(response) => (1, response.error_code, response.member.as_ref()),
            Payload::Other(member) => (2, 0, Some(member)),
        };
        let [field, start, length] = member_out(member);
        Ok([
            signed_out(told.command),
            payload,
            signed_out(error_code),
            field,
            start,
            length,
        ])
    })
}

/// A response's payload: none if the field number is 0.
fn member_in(field: u64, bytes: &[u8]) -> Option<(u64, &[u8])> {
    (field != 0).then_some((field, bytes))
}

/// Numbers `command, payload, error_code, field` with payload as for reading; answer `written`.
/// What the payload does not need is not looked at: error code, field and bytes with none, the
/// error code with another member, the bytes of a response with field 0.
pub fn envelope_write(
    numbers: [u64; 4],
    member: &[u8],
    output: &mut [u8],
    answer: &mut [u64],
) -> u64 {
    ask(answer, || {
        let [command, payload, error_code, field] = numbers;
        let command = signed_in(command)?;
        let payload = match payload {
            0 => Given::None,
            1 => Given::Response {
                error_code: signed_in(error_code)?,
                member: member_in(field, member),
            },
            2 => Given::Other {
                field,
                bytes: member,
            },
            _ => return Err(Refusal::Argument.into()),
        };
        Ok([wide(control::write_envelope(command, payload, output)?)])
    })
}

/// Answer `error_code, field, start, length`.
pub fn response_read(message: &[u8], answer: &mut [u64]) -> u64 {
    ask(answer, || {
        let told = Response::read(message)?;
        let [field, start, length] = member_out(told.member.as_ref());
        Ok([signed_out(told.error_code), field, start, length])
    })
}

/// Answer `written`; field 0 is no payload.
pub fn response_write(
    error_code: u64,
    field: u64,
    member: &[u8],
    output: &mut [u8],
    answer: &mut [u64],
) -> u64 {
    ask(answer, || {
        let error_code = signed_in(error_code)?;
        let written = control::write_response(error_code, member_in(field, member), output)?;
        Ok([wide(written)])
    })
}

/// The field that goes with 36 and 50, and the place that goes with 36, stand in the row's last two
/// numbers.
fn fault_out<const N: usize>(broken: refusal::Broken) -> Refused {
    let field = broken.field.map(|field| (N - 2, field));
    let place = broken.place.map(|place| (N - 1, place));
    Refused(broken.refusal, field.into_iter().chain(place).collect())
}

/// Answer `serial_number.start, .length, name.start, .length, device_type.start, .length,
/// transports`, eight transports, 0 where there are fewer, and `field, place`.
pub fn information_read(message: &[u8], answer: &mut [u64]) -> u64 {
    ask(answer, || {
        let told = Information::read(message).map_err(fault_out::<17>)?;
        let parts = [&told.serial_number, &told.name, &told.device_type];
        let mut row = [0; 17];
        let numbers = parts
            .into_iter()
            .flat_map(part_out)
            .chain([wide(told.transports.len())])
            .chain(told.transports.iter().copied().map(signed_out));
        row.iter_mut()
            .zip(numbers)
            .for_each(|(cell, number)| *cell = number);
        Ok(row)
    })
}

/// Answer `written, field, place`.
pub fn information_write(
    serial_number: &[u8],
    name: &[u8],
    device_type: &[u8],
    transports: &[u64],
    output: &mut [u8],
    answer: &mut [u64],
) -> u64 {
    ask(answer, || {
        let transports: Vec<i32> = transports
            .iter()
            .copied()
            .map(signed_in)
            .collect::<Result<_, _>>()?;
        let written =
            control::write_information(serial_number, name, &transports, device_type, output)
                .map_err(fault_out::<3>)?;
        Ok([wide(written), 0, 0])
    })
}

/// Answer `features, device_attributes`.
pub fn features_read(message: &[u8], answer: &mut [u64]) -> u64 {
    ask(answer, || {
        let told = Features::read(message)?;
        Ok([told.features, told.device_attributes])
    })
}

/// Answer `written`.
pub fn features_write(
    features: u64,
    device_attributes: u64,
    output: &mut [u8],
    answer: &mut [u64],
) -> u64 {
    ask(answer, || {
        let told = Features {
            features,
            device_attributes,
        };
        Ok([wide(control::write_features(told, output)?)])
    })
}

/// Numbers `features, device_attributes, information member, features member, room, limit, id, sequence`; inputs `message,
/// serial_number, name, device_type`; answer `written, field, place`, all 0 for no reply.
pub fn reply_write(
    numbers: [u64; 8],
    transports: &[u64],
    inputs: [&[u8]; 4],
    output: &mut [u8],
    answer: &mut [u64],
) -> u64 {
    let [features, device_attributes, information_member, features_member, ..] = numbers;
    let [.., room, limit, id, sequence] = numbers;
    let [message, serial_number, name, device_type] = inputs;
    ask(answer, || {
        let own = Own {
            serial_number,
            name,
            device_type,
            transports: transports
                .iter()
                .map(|&number| signed_in(number).ok())
                .collect(),
            features: Features {
                features,
                device_attributes,
            },
            information_member,
            features_member,
        };
        // Stream 0 is control, and no ACK is wanted.
        let wish = wish_row_in([0, id, sequence, 0]);
        let written =
            reply::write(message, &own, room, limit, wish, output).map_err(fault_out::<3>)?;
        Ok([written.map_or(0, wide), 0, 0])
    })
}

/// Answer `used`.
pub fn outbox_new(output: &mut [u8], answer: &mut [u64]) -> u64 {
    ask(answer, || Ok([wide(outbox::new(output)?)]))
}

/// A refusal of outbox bytes; the place that goes with 41 stands in the row's last number.
fn broken_out<const N: usize>(broken: Broken) -> Refused {
    let told = broken.place.map(|place| (N - 1, wide(place)));
    Refused(broken.refusal, told.into_iter().collect())
}

/// Answer `used, cut place`.
pub fn outbox_append(
    buffer: &mut [u8],
    used: u64,
    stream: u64,
    payload: &[u8],
    answer: &mut [u64],
) -> u64 {
    ask(answer, || {
        let used = outbox::append(buffer, used, stream, payload).map_err(broken_out::<2>)?;
        Ok([wide(used), 0])
    })
}

/// Answer `outcome, stream, start, length, next, cut place` with outcome 0 the end, 1 a record.
pub fn outbox_record(bytes: &[u8], place: u64, answer: &mut [u64]) -> u64 {
    ask(answer, || {
        Ok(
            match outbox::record(bytes, place).map_err(broken_out::<6>)? {
                None => [0; 6],
                Some(Record {
                    stream,
                    start,
                    length,
                    next,
                }) => [
                    1,
                    u64::from(stream.number()),
                    wide(start),
                    wide(length),
                    wide(next),
                    0,
                ],
            },
        )
    })
}

/// Answer `cut place`.
pub fn outbox_whole(bytes: &[u8], answer: &mut [u64]) -> u64 {
    ask(answer, || {
        outbox::whole(bytes).map_err(broken_out::<1>)?;
        Ok([0])
    })
}

/// Answer `outcome, start, length, next, place` with outcome 0 the end, 1 a packet; the place goes with 41 and 42.
pub fn capture_packet(capture: &[u8], place: u64, answer: &mut [u64]) -> u64 {
    ask(answer, || {
        let found = judge::packet_at(capture, place)
            .map_err(|(refusal, place)| Refused(refusal, vec![(4, wide(place))]))?;
        Ok(match found {
            None => [0; 5],
            Some(packet) => [
                1,
                wide(packet.start),
                wide(packet.len()),
                wide(packet.end),
                0,
            ],
        })
    })
}

/// Answer `outcome, place` with outcome 1 lawful, 2 open, 3 unlawful; the place goes with 3, 41 and 42.
pub fn capture_judge(capture: &[u8], room: u64, limit: u64, answer: &mut [u64]) -> u64 {
    ask(answer, || {
        let judged = judge::judge(capture, room, limit)
            .map_err(|(refusal, place)| Refused(refusal, vec![(1, wide(place))]))?;
        Ok(outcome_out(judged).into())
    })
}

/// Answer `outcome, place`, then of each stream `opened, id, left, sequence`, then what came (`refusal, size, stream, id,
/// sequence, kind, ack, extended, total, length`) and what was expected (`expected, id, sequence, kind, length, extended,
/// last`) with expected 1 any first packet, 2 the first one of this total, 3 the next one of what is open.
pub fn capture_why(capture: &[u8], room: u64, limit: u64, answer: &mut [u64]) -> u64 {
    ask(answer, || {
        let why = judge::why(capture, room, limit)
            .map_err(|(refusal, place)| Refused(refusal, vec![(1, wide(place))]))?;
        let mut row = [0; 31];
        (row[0], row[1]) = outcome_out(why.answer);
        for (place, open) in why.open.iter().enumerate() {
            if let Some(open) = open {
                let numbers = [1, open.id.into(), wide(open.left), open.sequence.into()];
                row[2 + 4 * place..][..4].copy_from_slice(&numbers);
            }
        }
        if let Some((came, expected)) = why.stopped {
            row[14..24].copy_from_slice(&came_out(&came));
            row[24..].copy_from_slice(&expected_out(expected));
        }
        Ok(row)
    })
}

fn outcome_out(answer: judge::Answer) -> (u64, u64) {
    match answer {
        judge::Answer::Lawful => (1, 0),
        judge::Answer::Open => (2, 0),
        judge::Answer::Unlawful(place) => (3, wide(place)),
    }
}

fn came_out(came: &judge::Came) -> [u64; 10] {
    [
        came.refusal.map_or(0, Refusal::number),
        wide(came.size),
        came.stream.into(),
        came.id.into(),
        came.sequence.into(),
        came.kind.into(),
        came.flag.into(),
        came.extended.into(),
        wide(came.total),
        wide(came.length),
    ]
}

fn expected_out(expected: judge::Expected) -> [u64; 7] {
    let (kind, next) = match expected {
        judge::Expected::Nothing => return [0; 7],
        judge::Expected::AnyFirst => return [1, 0, 0, 0, 0, 0, 0],
        judge::Expected::First(next) => (2, next),
        judge::Expected::Next(next) => (3, next),
    };
    [
        kind,
        next.id.into(),
        next.sequence.into(),
        next.kind.into(),
        wide(next.length),
        next.extended.into(),
        next.last.into(),
    ]
}

/// Answer `bad, hidden`: two places, the length where there is none; 36 tells them too.
pub fn text_places(bytes: &[u8], answer: &mut [u64]) -> u64 {
    ask(answer, || {
        let hidden = wide(text::hidden_place(bytes).unwrap_or(bytes.len()));
        match text::bad_place(bytes) {
            None => Ok([wide(bytes.len()), hidden]),
            Some(bad) => Err(Refused(Refusal::Text, vec![(0, wide(bad)), (1, hidden)])),
        }
    })
}

/// Seven numbers for each stream, in the row's order.
fn report_in(row: &[u64]) -> Option<Report> {
    let streams: Vec<Costs> = row
        .chunks(NUMBERS)
        .map(|numbers| numbers.try_into().ok().map(Costs::of_row))
        .collect::<Option<_>>()?;
    streams.try_into().ok()
}

/// The report goes in and out; answer `place`, which goes with 41 and 42. 19 leaves the report, and slots and buffer as
/// after the last packet.
pub fn report_add(
    report: &mut [u64],
    limit: u64,
    slots: &mut [Slot],
    buffer: &mut [u8],
    capture: &[u8],
    answer: &mut [u64],
) -> u64 {
    ask(answer, || {
        let before = report_in(report).ok_or(Refusal::Lent)?;
        let added = report::add(before, limit, slots.len(), buffer, capture).map_err(
            |(refusal, place)| match refusal {
                Refusal::Lent => refusal.into(),
                _ => Refused(refusal, vec![(0, wide(place))]),
            },
        )?;
        slots.copy_from_slice(&added.slots.map(slot_out));
        let rows = added.report?.map(Costs::row);
        report.copy_from_slice(rows.as_flattened());
        Ok([0])
    })
}

/// Answer `size, place`.
pub fn outbox_write_as(
    wished: Version,
    bytes: &[u8],
    output: &mut [u8],
    answer: &mut [u64],
) -> u64 {
    ask(answer, || {
        let size = outbox::write_as(wished, bytes, output).map_err(broken_out::<2>)?;
        Ok([wide(size), 0])
    })
}
