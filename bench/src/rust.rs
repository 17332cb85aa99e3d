//! The plain Rust of second/ behind the same C calls: each is its function of `face`, on the lent
//! slices, and has a name for callgrind.

use crate::calls::pito_slot;
use second::face::{self, firmware};
use second::low_energy::Reply;
use second::outbox::{ONE, TWO};
use std::slice;

unsafe fn lent<'a, T>(start: *mut T, length: usize) -> &'a mut [T] {
    slice::from_raw_parts_mut(start, length)
}

unsafe fn given<'a, T>(start: *const T, length: usize) -> &'a [T] {
    slice::from_raw_parts(start, length)
}

#[export_name = "plain_frame_begin"]
pub unsafe extern "C" fn frame_begin(
    sequence: u64,
    limit: u64,
    total: u64,
    state: *mut u64,
    states: usize,
) -> u64 {
    face::frame_begin([sequence, limit, total], lent(state, states))
}

macro_rules! shims {
    ($($name:ident($($argument:ident: $kind:ty),*) $answer:ident $call:expr;)*) => {
        $(#[export_name = concat!("plain_", stringify!($name))]
        pub unsafe extern "C" fn $name($($argument: $kind,)* answer: *mut u64, answers: usize) -> u64 {
            let $answer = lent(answer, answers);
            $call
        })*
    };
}

shims! {
    extractor_step(state: *mut u64, states: usize, buffer: *mut u8, size: usize, byte: u8) told
        face::extractor_step(lent(state, states), lent(buffer, size), byte, told);
    extractor_feed(state: *mut u64, states: usize, buffer: *mut u8, size: usize, bytes: *const u8, length: usize) told
        face::extractor_feed(lent(state, states), lent(buffer, size), given(bytes, length), told);
    frame_write(sequence: u64, limit: u64, payload: *const u8, length: usize, output: *mut u8, size: usize) told
        face::frame_write(sequence, limit, given(payload, length), lent(output, size), told);
    frame_part(state: *mut u64, states: usize, payload: *const u8, length: usize, output: *mut u8, size: usize) told
        face::frame_part(lent(state, states), given(payload, length), lent(output, size), told);
    packet_write(room: u64, limit: u64, stream: u64, id: u64, sequence: u64, ack: u64, message: *const u8, length: usize,
        place: u64, output: *mut u8, size: usize) told
        face::packet_write([room, limit], [stream, id, sequence, ack], given(message, length), place, lent(output, size), told);
    ack_write(stream: u64, id: u64, sequence: u64, positive: u64, output: *mut u8, size: usize) told
        face::ack_write([stream, id, sequence, positive], lent(output, size), told);
    packet_read(bytes: *const u8, length: usize, limit: u64) told face::packet_read(given(bytes, length), limit, told);
    receiver_accept(state: *const u64, states: usize, row: *mut pito_slot, slots: usize, buffer: *mut u8, size: usize,
        packet: *const u8, length: usize, sequence: u64, out: *mut u8, room: usize) told
        face::receiver_accept(given(state, states), lent(row.cast(), slots), lent(buffer, size), given(packet, length),
            Reply { sequence, buffer: lent(out, room) }, told);
    capture_packet(capture: *const u8, length: usize, place: u64) told
        face::capture_packet(given(capture, length), place, told);
    capture_judge(capture: *const u8, length: usize, room: u64, limit: u64) told
        face::capture_judge(given(capture, length), room, limit, told);
    capture_why(capture: *const u8, length: usize, room: u64, limit: u64) told
        face::capture_why(given(capture, length), room, limit, told);
    report_add(report: *mut u64, reports: usize, limit: u64, row: *mut pito_slot, slots: usize, buffer: *mut u8,
        size: usize, capture: *const u8, length: usize) told
        face::report_add(lent(report, reports), limit, lent(row.cast(), slots), lent(buffer, size),
            given(capture, length), told);
    envelope_read(message: *const u8, length: usize) told face::envelope_read(given(message, length), told);
    response_read(message: *const u8, length: usize) told face::response_read(given(message, length), told);
    information_read(message: *const u8, length: usize) told face::information_read(given(message, length), told);
    features_read(message: *const u8, length: usize) told face::features_read(given(message, length), told);
    envelope_write(command: u64, payload: u64, error_code: u64, field: u64, bytes: *const u8, length: usize,
        output: *mut u8, size: usize) told
        face::envelope_write([command, payload, error_code, field], given(bytes, length), lent(output, size), told);
    response_write(error_code: u64, field: u64, bytes: *const u8, length: usize, output: *mut u8, size: usize) told
        face::response_write(error_code, field, given(bytes, length), lent(output, size), told);
    information_write(serial_number: *const u8, serial_number_length: usize, name: *const u8, name_length: usize,
        device_type: *const u8, device_type_length: usize, transports: *const u64, transports_length: usize,
        output: *mut u8, size: usize) told
        face::information_write(given(serial_number, serial_number_length), given(name, name_length),
            given(device_type, device_type_length), given(transports, transports_length), lent(output, size), told);
    features_write(features: u64, device_attributes: u64, output: *mut u8, size: usize) told
        face::features_write(features, device_attributes, lent(output, size), told);
    reply_write(message: *const u8, length: usize, serial_number: *const u8, serial_number_length: usize,
        name: *const u8, name_length: usize, device_type: *const u8, device_type_length: usize,
        transports: *const u64, transports_length: usize, features: u64, device_attributes: u64,
        information_member: u64, features_member: u64, room: u64, limit: u64, id: u64, sequence: u64,
        output: *mut u8, size: usize) told
        face::reply_write([features, device_attributes, information_member, features_member, room, limit, id, sequence],
            given(transports, transports_length), [given(message, length), given(serial_number, serial_number_length),
            given(name, name_length), given(device_type, device_type_length)], lent(output, size), told);
    field_read(message: *const u8, length: usize, place: u64) told
        firmware::field_read(given(message, length), place, told);
    segment_read(message: *const u8, length: usize) told firmware::segment_read(given(message, length), told);
    apply_read(message: *const u8, length: usize) told firmware::apply_read(given(message, length), told);
    segment_write(name: *const u8, name_length: usize, offset: u64, segment_size: u64, signature: *const u8,
        signature_length: usize, output: *mut u8, size: usize) told
        firmware::segment_write(given(name, name_length), offset, segment_size, given(signature, signature_length),
            lent(output, size), told);
    apply_write(row: *const u64, rows: usize, texts: *const u8, length: usize, output: *mut u8, size: usize) told
        firmware::apply_write(given(row, rows), given(texts, length), lent(output, size), told);
    outbox_append(buffer: *mut u8, size: usize, used: u64, stream: u64, payload: *const u8, length: usize) told
        face::outbox_append(lent(buffer, size), used, stream, given(payload, length), told);
    outbox_record(bytes: *const u8, length: usize, place: u64) told
        face::outbox_record(given(bytes, length), place, told);
    outbox_whole(bytes: *const u8, length: usize) told face::outbox_whole(given(bytes, length), told);
    text(text: *const u8, length: usize) told face::text_places(given(text, length), told);
    outbox_to_01(bytes: *const u8, length: usize, output: *mut u8, size: usize) told
        face::outbox_write_as(ONE, given(bytes, length), lent(output, size), told);
    outbox_to_02(bytes: *const u8, length: usize, output: *mut u8, size: usize) told
        face::outbox_write_as(TWO, given(bytes, length), lent(output, size), told);
}
