//! The archive's calls on slices: the only unsafe code of this crate. Each function has the name, the parameters and the
//! answer row of the header's; tools/check_interface holds them to it.

// As many arguments and as long rows as the header has.
#![allow(clippy::result_large_err, clippy::too_many_arguments)]

use crate::declarations::{self, pito_slot};
use crate::Refusal;

/// A refusal, and the answer row as the call left it: some tell a field or a place.
pub struct Told<R> {
    pub refusal: Refusal,
    pub row: R,
}

impl<R> From<Told<R>> for Refusal {
    fn from(told: Told<R>) -> Refusal {
        told.refusal
    }
}

/// An archive of another version does not link.
#[used]
static VERSION: unsafe extern "C" fn() -> u64 = declarations::pito_version_6;

/// What a call returned, 0 or the number of a refusal. An archive of this version returns no other number.
fn judged<R>(number: u64, row: R) -> Result<R, Told<R>> {
    match number {
        0 => Ok(row),
        _ => Err(Told {
            refusal: Refusal::of(number).unwrap_or(Refusal::Unfit),
            row,
        }),
    }
}

/// One call, its parameters taken apart from the left: what passes for a slice is its pointer and its length, and a number
/// passes as it is. The answer row, where there is one, is passed last.
macro_rules! call {
    ($call:ident $row:ident ($($known:tt)*) ($($passed:tt)*) $name:ident: &mut [$element:ty] $(, $($rest:tt)*)?) => {
        call! { $call $row ($($known)* $name: &mut [$element],) ($($passed)* $name.as_mut_ptr(), $name.len(),) $($($rest)*)? }
    };
    ($call:ident $row:ident ($($known:tt)*) ($($passed:tt)*) $name:ident: &[$element:ty] $(, $($rest:tt)*)?) => {
        call! { $call $row ($($known)* $name: &[$element],) ($($passed)* $name.as_ptr(), $name.len(),) $($($rest)*)? }
    };
    ($call:ident $row:ident ($($known:tt)*) ($($passed:tt)*) $name:ident: $number:ident $(, $($rest:tt)*)?) => {
        call! { $call $row ($($known)* $name: $number,) ($($passed)* $name,) $($($rest)*)? }
    };
    ($call:ident Nothing ($($known:tt)*) ($($passed:tt)*)) => {
        pub fn $call($($known)*) -> Result<(), Refusal> {
            // SAFETY: the archive's functions take every number and every byte, and return. A caller owes them that each
            // pointer is valid for its length and not null, and that what may be written overlaps nothing else. Each pointer
            // and the length behind it are of one slice, which is borrowed for the whole call, exclusively if it may be
            // written; a slice's pointer is never null, of an empty one neither.
            let number = unsafe { declarations::$call($($passed)*) };
            judged(number, ()).map_err(Refusal::from)
        }
    };
    ($call:ident $row:ident ($($known:tt)*) ($($passed:tt)*)) => {
        pub fn $call($($known)*) -> Result<$row, Told<$row>> {
            let mut row = $row::default();
            let numbers = size_of::<$row>() / size_of::<u64>();
            // SAFETY: as above; and the row is `numbers` numbers of 64 bits with nothing between them, of this function alone.
            let number = unsafe { declarations::$call($($passed)* (&raw mut row).cast::<u64>(), numbers) };
            judged(number, row)
        }
    };
}

/// All calls, each with its answer row: the places of the header's enum, in their order.
macro_rules! calls {
    ($($call:ident $parameters:tt -> $row:ident $({ $($place:ident: $kind:ty),* })?;)*) => {
        $(
            $(
                #[repr(C)]
                #[derive(Default)]
                pub struct $row {
                    $(pub $place: $kind),*
                }
            )?
            calls! { @one $call $row $parameters }
        )*
    };
    (@one $call:ident $row:ident ($($parameters:tt)*)) => {
        call! { $call $row () () $($parameters)* }
    };
}

calls! {
    pito_extractor_open(limit: u64, state: &mut [u64]) -> Nothing;
    pito_extractor_step(state: &mut [u64], buffer: &mut [u8], byte: u8)
        -> Step { outcome: u64, sequence: u64, length: u64 };
    pito_extractor_feed(state: &mut [u64], buffer: &mut [u8], bytes: &[u8])
        -> Feed { outcome: u64, used: u64, sequence: u64, length: u64 };
    pito_frame_write(sequence: u64, limit: u64, payload: &[u8], output: &mut [u8]) -> FrameWrite { written: u64 };
    pito_frame_begin(sequence: u64, limit: u64, total: u64, state: &mut [u64]) -> Nothing;
    pito_frame_part(state: &mut [u64], payload: &[u8], output: &mut [u8])
        -> FramePart { taken: u64, written: u64, ended: u64 };
    pito_next_sequence(sequence: u8) -> NextSequence { next: u64 };
    pito_packet_write(room: u64, limit: u64, stream: u64, id: u64, sequence: u64, ack: u64, message: &[u8], place: u64,
        output: &mut [u8]) -> PacketWrite { written: u64, next_place: u64 };
    pito_ack_write(stream: u64, id: u64, sequence: u64, positive: u64, output: &mut [u8]) -> AckWrite { written: u64 };
    pito_packet_read(bytes: &[u8], limit: u64) -> PacketRead { end: u64, stream: u64, id: u64, sequence: u64, kind: u64,
        ack: u64, extended: u64, total: u64, start: u64, length: u64 };
    pito_receiver_open(limit: u64, state: &mut [u64]) -> Nothing;
    pito_receiver_accept(state: &[u64], row: &mut [pito_slot], buffer: &mut [u8], packet: &[u8], sequence: u64,
        out: &mut [u8]) -> Accept { outcome: u64, stream: u64, id: u64, sequence: u64, total: u64, ack_wanted: u64,
        replaced: u64, place: u64 };
    pito_capture_packet(capture: &[u8], place: u64) -> CapturePacket { outcome: u64, start: u64, length: u64, next: u64,
        place: u64 };
    pito_capture_judge(capture: &[u8], room: u64, limit: u64) -> CaptureJudge { outcome: u64, place: u64 };
    pito_capture_why(capture: &[u8], room: u64, limit: u64) -> CaptureWhy { outcome: u64, place: u64,
        control_opened: u64, control_id: u64, control_left: u64, control_sequence: u64,
        ota_opened: u64, ota_id: u64, ota_left: u64, ota_sequence: u64,
        alexa_opened: u64, alexa_id: u64, alexa_left: u64, alexa_sequence: u64,
        refusal: u64, size: u64, stream: u64, id: u64, sequence: u64, kind: u64, ack: u64, extended: u64, total: u64,
        length: u64, expected: u64, expected_id: u64, expected_sequence: u64, expected_kind: u64, expected_length: u64,
        expected_extended: u64, expected_last: u64 };
    pito_report_add(report: &mut [u64], limit: u64, row: &mut [pito_slot], buffer: &mut [u8], capture: &[u8])
        -> ReportAdd { place: u64 };
    pito_envelope_read(message: &[u8])
        -> EnvelopeRead { command: u64, payload: u64, error_code: u64, field: u64, start: u64, length: u64 };
    pito_envelope_write(command: u64, payload: u64, error_code: u64, field: u64, bytes: &[u8], output: &mut [u8])
        -> EnvelopeWrite { written: u64 };
    pito_response_read(message: &[u8]) -> ResponseRead { error_code: u64, field: u64, start: u64, length: u64 };
    pito_response_write(error_code: u64, field: u64, bytes: &[u8], output: &mut [u8]) -> ResponseWrite { written: u64 };
    pito_information_read(message: &[u8]) -> InformationRead { serial_number_start: u64, serial_number_length: u64,
        name_start: u64, name_length: u64, device_type_start: u64, device_type_length: u64, transports: u64,
        transport: [u64; 8], field: u64, place: u64 };
    pito_information_write(serial_number: &[u8], name: &[u8], device_type: &[u8], transports: &[u64], output: &mut [u8])
        -> InformationWrite { written: u64, field: u64, place: u64 };
    pito_features_read(message: &[u8]) -> FeaturesRead { features: u64, device_attributes: u64 };
    pito_features_write(features: u64, device_attributes: u64, output: &mut [u8]) -> FeaturesWrite { written: u64 };
    pito_segment_read(message: &[u8]) -> SegmentRead { name_start: u64, name_length: u64, offset: u64, size: u64,
        signature_start: u64, signature_length: u64, field: u64, place: u64 };
    pito_segment_write(name: &[u8], offset: u64, size: u64, signature: &[u8], output: &mut [u8])
        -> SegmentWrite { written: u64, field: u64, place: u64 };
    pito_apply_read(message: &[u8]) -> ApplyRead { restart_required: u64, version: u64, name_start: u64, name_length: u64,
        locale_start: u64, locale_length: u64, version_name_start: u64, version_name_length: u64, components: u64,
        component: [[u64; 6]; 8], field: u64, place: u64 };
    pito_apply_write(row: &[u64], texts: &[u8], output: &mut [u8])
        -> ApplyWrite { written: u64, field: u64, place: u64 };
    pito_field_read(message: &[u8], place: u64) -> FieldRead { outcome: u64, number: u64, kind: u64, value: u64,
        start: u64, length: u64, next: u64 };
    pito_reply_write(message: &[u8], serial_number: &[u8], name: &[u8], device_type: &[u8], transports: &[u64],
        features: u64, device_attributes: u64, information_member: u64, features_member: u64, room: u64, limit: u64,
        id: u64, sequence: u64, output: &mut [u8]) -> ReplyWrite { written: u64, field: u64, place: u64 };
    pito_outbox_new(output: &mut [u8]) -> OutboxNew { used: u64 };
    pito_outbox_append(buffer: &mut [u8], used: u64, stream: u64, payload: &[u8])
        -> OutboxAppend { used: u64, cut_place: u64 };
    pito_outbox_record(bytes: &[u8], place: u64) -> OutboxRecord { outcome: u64, stream: u64, start: u64, length: u64,
        next: u64, cut_place: u64 };
    pito_outbox_whole(bytes: &[u8]) -> OutboxWhole { cut_place: u64 };
    pito_outbox_to_01(bytes: &[u8], output: &mut [u8]) -> OutboxTo01 { size: u64, place: u64 };
    pito_outbox_to_02(bytes: &[u8], output: &mut [u8]) -> OutboxTo02 { size: u64, place: u64 };
    pito_text(text: &[u8]) -> Text { bad: u64, hidden: u64 };
}
