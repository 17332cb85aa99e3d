//! The numbers that the header defines, under its names without `PITO_`; tools/check_interface holds each to it.
//! The sizes are proved to be enough for every argument of these lengths. All are `const`, for arrays:
//!
//! ```
//! use pitokaenge::sizes::{extractor_buffer, frame_size, receiver_buffer};
//!
//! const LIMIT: usize = 4096;
//! static FRAME: [u8; frame_size(LIMIT)] = [0; frame_size(LIMIT)];
//! assert_eq!(FRAME.len(), 8201);
//! assert_eq!(extractor_buffer(LIMIT), 4098);
//! assert_eq!(receiver_buffer(LIMIT), 49_152);
//! ```

/// The version of the interface that these calls are of.
pub const VERSION: u64 = 6;
/// The largest limit of a link.
pub const LARGEST_LIMIT: usize = 65535;
/// The slots of a receiver, four for each stream.
pub const SLOTS: usize = 12;
/// The least room of a link.
pub const LEAST_ROOM: usize = 20;
/// The largest room of a link.
pub const LARGEST_ROOM: usize = 512;
/// The bytes of an ACK or a NACK.
pub const ACK_SIZE: usize = 6;
/// How many transports a message has at most.
pub const MOST_TRANSPORTS: usize = 8;
/// How many components a message has at most.
pub const MOST_COMPONENTS: usize = 8;
/// The largest payload of a record in an outbox of version 01.
pub const VERSION_01_LIMIT: usize = 4096;
/// Where the first record of an outbox stands, and the first packet's length in a capture.
pub const FIRST_PLACE: usize = 1;

/// What a link with this limit lends to its extractor.
pub const fn extractor_buffer(limit: usize) -> usize {
    limit + 2
}

/// What a link with this limit lends to its receiver.
pub const fn receiver_buffer(limit: usize) -> usize {
    12 * limit
}

/// Enough for the frame of a payload.
pub const fn frame_size(payload_len: usize) -> usize {
    2 * payload_len + 9
}

/// Enough for an envelope with a member of so many bytes.
pub const fn envelope_size(bytes_len: usize) -> usize {
    bytes_len + 53
}

/// Enough for a response with a payload of so many bytes.
pub const fn response_size(bytes_len: usize) -> usize {
    bytes_len + 31
}

/// Enough for device information with strings of these lengths.
pub const fn information_size(
    serial_number_len: usize,
    name_len: usize,
    device_type_len: usize,
) -> usize {
    serial_number_len + name_len + device_type_len + 124
}

/// Enough for device features.
pub const FEATURES_SIZE: usize = 22;

/// Enough for a segment with a name of this length.
pub const fn segment_size(name_len: usize) -> usize {
    name_len + 97
}

/// Enough for an ApplyFirmware, where `strings_len` is the sum of the lengths of all its strings.
pub const fn apply_size(components: usize, strings_len: usize) -> usize {
    55 * components + strings_len + 66
}

/// Enough for every reply of a device with strings of these lengths, at every room.
pub const fn reply_size(
    serial_number_len: usize,
    name_len: usize,
    device_type_len: usize,
) -> usize {
    2 * (serial_number_len + name_len + device_type_len) + 360
}

/// Enough for a record of any version.
pub const fn record_size(payload_len: usize) -> usize {
    payload_len + 5
}

/// Enough for an outbox of one record.
pub const fn one_record(payload_len: usize) -> usize {
    payload_len + 6
}

// Outcomes and kinds.
pub(crate) const SKIPPED: u64 = 0;
pub(crate) const FRAME: u64 = 2;
pub(crate) const PACKET_FIRST: u64 = 0;
pub(crate) const PACKET_CONTINUATION: u64 = 1;
pub(crate) const PACKET_LAST: u64 = 2;
pub(crate) const PIECE_TAKEN: u64 = 0;
pub(crate) const FINISHED: u64 = 1;
pub(crate) const ACKED: u64 = 2;
pub(crate) const EXPECTED_ANY_FIRST: u64 = 1;
pub(crate) const EXPECTED_FIRST: u64 = 2;
pub(crate) const EXPECTED_NEXT: u64 = 3;
pub(crate) const LAWFUL: u64 = 1;
pub(crate) const OPEN: u64 = 2;
pub(crate) const PAYLOAD_NONE: u64 = 0;
pub(crate) const PAYLOAD_RESPONSE: u64 = 1;
pub(crate) const PAYLOAD_MEMBER: u64 = 2;
pub(crate) const END: u64 = 0;
pub(crate) const KIND_VARINT: u64 = 0;
pub(crate) const KIND_EIGHT_BYTES: u64 = 1;
pub(crate) const KIND_BYTES: u64 = 2;
pub(crate) const KIND_FOUR_BYTES: u64 = 5;
// The lengths of the state rows, of a report, and of the row that an ApplyFirmware is written from.
pub(crate) const EXTRACTOR_STATE: usize = 4;
pub(crate) const PARTS_STATE: usize = 7;
pub(crate) const RECEIVER_STATE: usize = 1;
pub(crate) const REPORT_ROW: usize = 21;
pub(crate) const APPLY_ROW: usize = 57;
pub(crate) const COMPONENT_ANSWER: usize = 6;
