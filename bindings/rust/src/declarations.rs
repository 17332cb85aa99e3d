//! The functions of include/pitokaenge.h as they are: the archive that `tools/archive` writes. A slice passes as a pointer
//! and then a length; what a caller owes stands in the header. tools/check_interface holds this file to the header and to
//! the library's sources. The types of this crate are the safe way to the same calls.

/// A slot of the receiver's lent row: 8 bytes. All 0, it is idle.
#[repr(C)]
#[derive(Clone, Copy, Debug, Default, PartialEq, Eq)]
#[allow(non_camel_case_types)]
pub struct pito_slot {
    /// 1 open; 0 idle, and then all others are 0 too.
    pub opened: u8,
    /// The transaction's, 0 to 15.
    pub id: u8,
    /// Its last packet's, 0 to 15.
    pub sequence: u8,
    /// 1 if a packet of it asked for an ACK.
    pub wanted: u8,
    /// The message's length.
    pub total: u16,
    /// How much of it has come.
    pub held: u16,
}

#[link(name = "pitokaenge", kind = "static")]
extern "C" {
    /// The archive's own version, the header's. The number is in the name, so that a program does not link with an archive
    /// of another version.
    pub fn pito_version_6() -> u64;
    /// Opens an extractor: the empty state of a limit.
    pub fn pito_extractor_open(limit: u64, state: *mut u64, state_len: usize) -> u64;
    /// One byte of a Classic stream.
    pub fn pito_extractor_step(
        state: *mut u64,
        state_len: usize,
        buffer: *mut u8,
        buffer_len: usize,
        byte: u8,
        answer: *mut u64,
        answer_len: usize,
    ) -> u64;
    /// Many bytes of a Classic stream, up to the first frame or refusal.
    pub fn pito_extractor_feed(
        state: *mut u64,
        state_len: usize,
        buffer: *mut u8,
        buffer_len: usize,
        bytes: *const u8,
        bytes_len: usize,
        answer: *mut u64,
        answer_len: usize,
    ) -> u64;
    /// Writes the frame of a payload.
    pub fn pito_frame_write(
        sequence: u64,
        limit: u64,
        payload: *const u8,
        payload_len: usize,
        output: *mut u8,
        output_len: usize,
        answer: *mut u64,
        answer_len: usize,
    ) -> u64;
    /// Begins a frame that is written by parts.
    pub fn pito_frame_begin(
        sequence: u64,
        limit: u64,
        total: u64,
        state: *mut u64,
        state_len: usize,
    ) -> u64;
    /// Writes a frame on.
    pub fn pito_frame_part(
        state: *mut u64,
        state_len: usize,
        payload: *const u8,
        payload_len: usize,
        output: *mut u8,
        output_len: usize,
        answer: *mut u64,
        answer_len: usize,
    ) -> u64;
    /// The sequence byte after a sequence byte.
    pub fn pito_next_sequence(sequence: u8, answer: *mut u64, answer_len: usize) -> u64;
    /// Writes one packet of a message.
    pub fn pito_packet_write(
        room: u64,
        limit: u64,
        stream: u64,
        id: u64,
        sequence: u64,
        ack: u64,
        message: *const u8,
        message_len: usize,
        place: u64,
        output: *mut u8,
        output_len: usize,
        answer: *mut u64,
        answer_len: usize,
    ) -> u64;
    /// Writes an ACK or a NACK.
    pub fn pito_ack_write(
        stream: u64,
        id: u64,
        sequence: u64,
        positive: u64,
        output: *mut u8,
        output_len: usize,
        answer: *mut u64,
        answer_len: usize,
    ) -> u64;
    /// Reads the packet at the front of some bytes.
    pub fn pito_packet_read(
        bytes: *const u8,
        bytes_len: usize,
        limit: u64,
        answer: *mut u64,
        answer_len: usize,
    ) -> u64;
    /// Opens a receiver: the state of a limit.
    pub fn pito_receiver_open(limit: u64, state: *mut u64, state_len: usize) -> u64;
    /// One packet, accepted and answered.
    pub fn pito_receiver_accept(
        state: *const u64,
        state_len: usize,
        row: *mut pito_slot,
        row_len: usize,
        buffer: *mut u8,
        buffer_len: usize,
        packet: *const u8,
        packet_len: usize,
        sequence: u64,
        out: *mut u8,
        out_len: usize,
        answer: *mut u64,
        answer_len: usize,
    ) -> u64;
    /// Reads the packet at a place of a capture.
    pub fn pito_capture_packet(
        capture: *const u8,
        capture_len: usize,
        place: u64,
        answer: *mut u64,
        answer_len: usize,
    ) -> u64;
    /// Judges another sender by a capture.
    pub fn pito_capture_judge(
        capture: *const u8,
        capture_len: usize,
        room: u64,
        limit: u64,
        answer: *mut u64,
        answer_len: usize,
    ) -> u64;
    /// Judges another sender, and tells what came and what was expected.
    pub fn pito_capture_why(
        capture: *const u8,
        capture_len: usize,
        room: u64,
        limit: u64,
        answer: *mut u64,
        answer_len: usize,
    ) -> u64;
    /// Adds a capture to a report of what the radio cost.
    pub fn pito_report_add(
        report: *mut u64,
        report_len: usize,
        limit: u64,
        row: *mut pito_slot,
        row_len: usize,
        buffer: *mut u8,
        buffer_len: usize,
        capture: *const u8,
        capture_len: usize,
        answer: *mut u64,
        answer_len: usize,
    ) -> u64;
    /// Reads a control envelope.
    pub fn pito_envelope_read(
        message: *const u8,
        message_len: usize,
        answer: *mut u64,
        answer_len: usize,
    ) -> u64;
    /// Writes a control envelope.
    pub fn pito_envelope_write(
        command: u64,
        payload: u64,
        error_code: u64,
        field: u64,
        bytes: *const u8,
        bytes_len: usize,
        output: *mut u8,
        output_len: usize,
        answer: *mut u64,
        answer_len: usize,
    ) -> u64;
    /// Reads a response.
    pub fn pito_response_read(
        message: *const u8,
        message_len: usize,
        answer: *mut u64,
        answer_len: usize,
    ) -> u64;
    /// Writes a response.
    pub fn pito_response_write(
        error_code: u64,
        field: u64,
        bytes: *const u8,
        bytes_len: usize,
        output: *mut u8,
        output_len: usize,
        answer: *mut u64,
        answer_len: usize,
    ) -> u64;
    /// Reads device information.
    pub fn pito_information_read(
        message: *const u8,
        message_len: usize,
        answer: *mut u64,
        answer_len: usize,
    ) -> u64;
    /// Writes device information.
    pub fn pito_information_write(
        serial_number: *const u8,
        serial_number_len: usize,
        name: *const u8,
        name_len: usize,
        device_type: *const u8,
        device_type_len: usize,
        transports: *const u64,
        transports_len: usize,
        output: *mut u8,
        output_len: usize,
        answer: *mut u64,
        answer_len: usize,
    ) -> u64;
    /// Reads device features.
    pub fn pito_features_read(
        message: *const u8,
        message_len: usize,
        answer: *mut u64,
        answer_len: usize,
    ) -> u64;
    /// Writes device features.
    pub fn pito_features_write(
        features: u64,
        device_attributes: u64,
        output: *mut u8,
        output_len: usize,
        answer: *mut u64,
        answer_len: usize,
    ) -> u64;
    /// Reads an UpdateComponentSegment.
    pub fn pito_segment_read(
        message: *const u8,
        message_len: usize,
        answer: *mut u64,
        answer_len: usize,
    ) -> u64;
    /// Writes an UpdateComponentSegment.
    pub fn pito_segment_write(
        name: *const u8,
        name_len: usize,
        offset: u64,
        size: u64,
        signature: *const u8,
        signature_len: usize,
        output: *mut u8,
        output_len: usize,
        answer: *mut u64,
        answer_len: usize,
    ) -> u64;
    /// Reads an ApplyFirmware.
    pub fn pito_apply_read(
        message: *const u8,
        message_len: usize,
        answer: *mut u64,
        answer_len: usize,
    ) -> u64;
    /// Writes an ApplyFirmware.
    pub fn pito_apply_write(
        row: *const u64,
        row_len: usize,
        texts: *const u8,
        texts_len: usize,
        output: *mut u8,
        output_len: usize,
        answer: *mut u64,
        answer_len: usize,
    ) -> u64;
    /// Reads the field at a place of any message.
    pub fn pito_field_read(
        message: *const u8,
        message_len: usize,
        place: u64,
        answer: *mut u64,
        answer_len: usize,
    ) -> u64;
    /// Writes the reply to a finished control transaction, as joined packets.
    pub fn pito_reply_write(
        message: *const u8,
        message_len: usize,
        serial_number: *const u8,
        serial_number_len: usize,
        name: *const u8,
        name_len: usize,
        device_type: *const u8,
        device_type_len: usize,
        transports: *const u64,
        transports_len: usize,
        features: u64,
        device_attributes: u64,
        information_member: u64,
        features_member: u64,
        room: u64,
        limit: u64,
        id: u64,
        sequence: u64,
        output: *mut u8,
        output_len: usize,
        answer: *mut u64,
        answer_len: usize,
    ) -> u64;
    /// Begins a new outbox.
    pub fn pito_outbox_new(
        output: *mut u8,
        output_len: usize,
        answer: *mut u64,
        answer_len: usize,
    ) -> u64;
    /// Appends a record to an outbox.
    pub fn pito_outbox_append(
        buffer: *mut u8,
        buffer_len: usize,
        used: u64,
        stream: u64,
        payload: *const u8,
        payload_len: usize,
        answer: *mut u64,
        answer_len: usize,
    ) -> u64;
    /// Reads the record at a place of an outbox.
    pub fn pito_outbox_record(
        bytes: *const u8,
        bytes_len: usize,
        place: u64,
        answer: *mut u64,
        answer_len: usize,
    ) -> u64;
    /// Whether all of an outbox is whole.
    pub fn pito_outbox_whole(
        bytes: *const u8,
        bytes_len: usize,
        answer: *mut u64,
        answer_len: usize,
    ) -> u64;
    /// Writes an outbox as version 01.
    pub fn pito_outbox_to_01(
        bytes: *const u8,
        bytes_len: usize,
        output: *mut u8,
        output_len: usize,
        answer: *mut u64,
        answer_len: usize,
    ) -> u64;
    /// Writes an outbox as version 02.
    pub fn pito_outbox_to_02(
        bytes: *const u8,
        bytes_len: usize,
        output: *mut u8,
        output_len: usize,
        answer: *mut u64,
        answer_len: usize,
    ) -> u64;
    /// Tells where bytes are not text.
    pub fn pito_text(text: *const u8, text_len: usize, answer: *mut u64, answer_len: usize) -> u64;
}
