//! The verified library, through its C interface (include/pitokaenge.h): the archive that
//! `tools/archive` writes, linked with the feature `library` by bindings/rust, which declares its
//! functions.

use crate::implementation::{Implementation, Lent, Operation};
use pitokaenge::declarations::*;

mod firmware;

/// The library behind its C interface.
pub struct Library;

impl Implementation for Library {
    fn name(&self) -> &str {
        "library"
    }

    fn call(
        &self,
        operation: Operation,
        numbers: &[u64],
        inputs: &[Vec<u8>],
        state: &mut [u64],
        lent: Lent<'_>,
        answer: &mut [u64],
    ) -> u64 {
        let Lent {
            slots,
            bytes: lent,
            reply,
        } = lent;
        let (row, rows) = (state.as_mut_ptr(), state.len());
        let (bytes, size) = (lent.as_mut_ptr(), lent.len());
        let (told, tells) = (answer.as_mut_ptr(), answer.len());
        let input = |place: usize| (inputs[place].as_ptr(), inputs[place].len());
        // Every pointer comes from a slice that outlives the call, with that slice's length.
        unsafe {
            match operation {
                Operation::ExtractorOpen => pito_extractor_open(numbers[0], row, rows),
                Operation::ExtractorStep => {
                    pito_extractor_step(row, rows, bytes, size, numbers[0] as u8, told, tells)
                }
                Operation::ExtractorFeed => {
                    let (given, length) = input(0);
                    pito_extractor_feed(row, rows, bytes, size, given, length, told, tells)
                }
                Operation::FrameWrite => {
                    let (payload, length) = input(0);
                    pito_frame_write(
                        numbers[0], numbers[1], payload, length, bytes, size, told, tells,
                    )
                }
                Operation::FrameBegin => {
                    pito_frame_begin(numbers[0], numbers[1], numbers[2], row, rows)
                }
                Operation::FramePart => {
                    let (payload, length) = input(0);
                    pito_frame_part(row, rows, payload, length, bytes, size, told, tells)
                }
                Operation::NextSequence => pito_next_sequence(numbers[0] as u8, told, tells),
                Operation::PacketWrite => {
                    let [room, limit, stream, id, sequence, ack, place] = *numbers else {
                        panic!("seven numbers")
                    };
                    let (message, length) = input(0);
                    pito_packet_write(
                        room, limit, stream, id, sequence, ack, message, length, place, bytes,
                        size, told, tells,
                    )
                }
                Operation::AckWrite => {
                    let [stream, id, sequence, positive] = *numbers else {
                        panic!("four numbers")
                    };
                    pito_ack_write(stream, id, sequence, positive, bytes, size, told, tells)
                }
                Operation::PacketRead => {
                    let (packets, length) = input(0);
                    pito_packet_read(packets, length, numbers[0], told, tells)
                }
                Operation::ReceiverOpen => pito_receiver_open(numbers[0], row, rows),
                Operation::ReceiverAccept => {
                    let (packet, length) = input(0);
                    let (out, room) = (reply.as_mut_ptr(), reply.len());
                    // Both are the C struct, field by field.
                    let (slot, slots) = (slots.as_mut_ptr().cast(), slots.len());
                    pito_receiver_accept(
                        row, rows, slot, slots, bytes, size, packet, length, numbers[0], out, room,
                        told, tells,
                    )
                }
                Operation::CapturePacket => {
                    let (capture, length) = input(0);
                    pito_capture_packet(capture, length, numbers[0], told, tells)
                }
                Operation::CaptureJudge => {
                    let (capture, length) = input(0);
                    pito_capture_judge(capture, length, numbers[0], numbers[1], told, tells)
                }
                Operation::CaptureWhy => {
                    let (capture, length) = input(0);
                    pito_capture_why(capture, length, numbers[0], numbers[1], told, tells)
                }
                Operation::ReportAdd => {
                    let (capture, length) = input(0);
                    let (slot, slots) = (slots.as_mut_ptr().cast(), slots.len());
                    pito_report_add(
                        row, rows, numbers[0], slot, slots, bytes, size, capture, length, told,
                        tells,
                    )
                }
                Operation::EnvelopeRead => {
                    let (message, length) = input(0);
                    pito_envelope_read(message, length, told, tells)
                }
                Operation::EnvelopeWrite => {
                    let [command, payload, error_code, field] = *numbers else {
                        panic!("four numbers")
                    };
                    let (member, length) = input(0);
                    pito_envelope_write(
                        command, payload, error_code, field, member, length, bytes, size, told,
                        tells,
                    )
                }
                Operation::ResponseRead => {
                    let (message, length) = input(0);
                    pito_response_read(message, length, told, tells)
                }
                Operation::ResponseWrite => {
                    let (member, length) = input(0);
                    pito_response_write(
                        numbers[0], numbers[1], member, length, bytes, size, told, tells,
                    )
                }
                Operation::InformationRead => {
                    let (message, length) = input(0);
                    pito_information_read(message, length, told, tells)
                }
                Operation::InformationWrite => {
                    let (serial_number, serial_number_length) = input(0);
                    let (name, name_length) = input(1);
                    let (device_type, device_type_length) = input(2);
                    pito_information_write(
                        serial_number,
                        serial_number_length,
                        name,
                        name_length,
                        device_type,
                        device_type_length,
                        numbers.as_ptr(),
                        numbers.len(),
                        bytes,
                        size,
                        told,
                        tells,
                    )
                }
                Operation::FeaturesRead => {
                    let (message, length) = input(0);
                    pito_features_read(message, length, told, tells)
                }
                Operation::FeaturesWrite => {
                    pito_features_write(numbers[0], numbers[1], bytes, size, told, tells)
                }
                Operation::ReplyWrite => write_reply(numbers, inputs, lent, answer),
                Operation::SegmentRead
                | Operation::SegmentWrite
                | Operation::ApplyRead
                | Operation::ApplyWrite
                | Operation::FieldRead => firmware::call(operation, numbers, inputs, lent, answer),
                Operation::OutboxNew => pito_outbox_new(bytes, size, told, tells),
                Operation::OutboxAppend => {
                    let (payload, length) = input(0);
                    pito_outbox_append(
                        bytes, size, numbers[0], numbers[1], payload, length, told, tells,
                    )
                }
                Operation::OutboxRecord => {
                    let (outbox, length) = input(0);
                    pito_outbox_record(outbox, length, numbers[0], told, tells)
                }
                Operation::OutboxWhole => {
                    let (outbox, length) = input(0);
                    pito_outbox_whole(outbox, length, told, tells)
                }
                Operation::OutboxTo01 => {
                    let (outbox, length) = input(0);
                    pito_outbox_to_01(outbox, length, bytes, size, told, tells)
                }
                Operation::OutboxTo02 => {
                    let (outbox, length) = input(0);
                    pito_outbox_to_02(outbox, length, bytes, size, told, tells)
                }
                Operation::Text => {
                    let (text, length) = input(0);
                    pito_text(text, length, told, tells)
                }
            }
        }
    }
}

/// The reply to a finished control transaction.
fn write_reply(numbers: &[u64], inputs: &[Vec<u8>], lent: &mut [u8], answer: &mut [u64]) -> u64 {
    let ([message, serial_number, name, device_type], Some((numbers, transports))) =
        (inputs, numbers.split_first_chunk())
    else {
        panic!("four inputs, eight numbers and the transports")
    };
    let [features, device_attributes, information, of_features, room, limit, id, sequence] =
        *numbers;
    // Every pointer comes from a slice that outlives the call, with that slice's length.
    unsafe {
        pito_reply_write(
            message.as_ptr(),
            message.len(),
            serial_number.as_ptr(),
            serial_number.len(),
            name.as_ptr(),
            name.len(),
            device_type.as_ptr(),
            device_type.len(),
            transports.as_ptr(),
            transports.len(),
            features,
            device_attributes,
            information,
            of_features,
            room,
            limit,
            id,
            sequence,
            lent.as_mut_ptr(),
            lent.len(),
            answer.as_mut_ptr(),
            answer.len(),
        )
    }
}
