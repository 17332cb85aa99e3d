//! The calls of include/pitokaenge.h: the type of each, and a module for each subject that has its function under the same name.
//! A slice passes as a pointer and then a length.

pub use pitokaenge::declarations::pito_slot;

/// Hands every call to a macro, behind the macro's own words.
macro_rules! all_calls {
    ($take:ident $($word:tt)*) => {
        messages! { $take $($word)* }
        $take! { $($word)*
            ExtractorStep(state: *mut u64, states: usize, buffer: *mut u8, size: usize, byte: u8, answer: *mut u64,
                answers: usize) extractor_step;
            ExtractorFeed(state: *mut u64, states: usize, buffer: *mut u8, size: usize, bytes: *const u8, length: usize,
                answer: *mut u64, answers: usize) extractor_feed;
            FrameWrite(sequence: u64, limit: u64, payload: *const u8, length: usize, output: *mut u8, size: usize,
                answer: *mut u64, answers: usize) frame_write;
            FrameBegin(sequence: u64, limit: u64, total: u64, state: *mut u64, states: usize) frame_begin;
            FramePart(state: *mut u64, states: usize, payload: *const u8, length: usize, output: *mut u8, size: usize,
                answer: *mut u64, answers: usize) frame_part;
            PacketWrite(room: u64, limit: u64, stream: u64, id: u64, sequence: u64, ack: u64, message: *const u8,
                length: usize, place: u64, output: *mut u8, size: usize, answer: *mut u64, answers: usize) packet_write;
            AckWrite(stream: u64, id: u64, sequence: u64, positive: u64, output: *mut u8, size: usize, answer: *mut u64,
                answers: usize) ack_write;
            PacketRead(bytes: *const u8, length: usize, limit: u64, answer: *mut u64, answers: usize) packet_read;
            ReceiverAccept(state: *const u64, states: usize, row: *mut pito_slot, slots: usize, buffer: *mut u8,
                size: usize, packet: *const u8, length: usize, sequence: u64, out: *mut u8, room: usize,
                answer: *mut u64, answers: usize) receiver_accept;
            CapturePacket(capture: *const u8, length: usize, place: u64, answer: *mut u64, answers: usize) capture_packet;
            CaptureJudge(capture: *const u8, length: usize, room: u64, limit: u64, answer: *mut u64, answers: usize)
                capture_judge capture_why;
            ReportAdd(report: *mut u64, reports: usize, limit: u64, row: *mut pito_slot, slots: usize, buffer: *mut u8,
                size: usize, capture: *const u8, length: usize, answer: *mut u64, answers: usize) report_add;
            FieldRead(message: *const u8, length: usize, place: u64, answer: *mut u64, answers: usize) field_read;
            ReplyWrite(message: *const u8, length: usize, serial_number: *const u8, serial_number_length: usize,
                name: *const u8, name_length: usize, device_type: *const u8, device_type_length: usize,
                transports: *const u64, transports_length: usize, features: u64, device_attributes: u64,
                information_member: u64, features_member: u64, room: u64, limit: u64, id: u64, sequence: u64,
                output: *mut u8, size: usize, answer: *mut u64, answers: usize) reply_write;
            OutboxAppend(buffer: *mut u8, size: usize, used: u64, stream: u64, payload: *const u8, length: usize,
                answer: *mut u64, answers: usize) outbox_append;
            OutboxRecord(bytes: *const u8, length: usize, place: u64, answer: *mut u64, answers: usize) outbox_record;
            OutboxWhole(bytes: *const u8, length: usize, answer: *mut u64, answers: usize) outbox_whole;
            Text(text: *const u8, length: usize, answer: *mut u64, answers: usize) text;
            OutboxTo(bytes: *const u8, length: usize, output: *mut u8, size: usize, answer: *mut u64, answers: usize)
                outbox_to_01 outbox_to_02;
        }
    };
}

/// The same of messages alone, which nanopb and protobuf-c have too.
macro_rules! messages {
    ($take:ident $($word:tt)*) => {
        $take! { $($word)*
            MessageRead(message: *const u8, length: usize, answer: *mut u64, answers: usize)
                envelope_read response_read information_read features_read segment_read apply_read;
            EnvelopeWrite(command: u64, payload: u64, error_code: u64, field: u64, bytes: *const u8, length: usize,
                output: *mut u8, size: usize, answer: *mut u64, answers: usize) envelope_write;
            ResponseWrite(error_code: u64, field: u64, bytes: *const u8, length: usize, output: *mut u8, size: usize,
                answer: *mut u64, answers: usize) response_write;
            InformationWrite(serial_number: *const u8, serial_number_length: usize, name: *const u8, name_length: usize,
                device_type: *const u8, device_type_length: usize, transports: *const u64, transports_length: usize,
                output: *mut u8, size: usize, answer: *mut u64, answers: usize) information_write;
            FeaturesWrite(features: u64, device_attributes: u64, output: *mut u8, size: usize, answer: *mut u64,
                answers: usize) features_write;
            SegmentWrite(name: *const u8, name_length: usize, offset: u64, segment_size: u64, signature: *const u8,
                signature_length: usize, output: *mut u8, size: usize, answer: *mut u64, answers: usize) segment_write;
            ApplyWrite(row: *const u64, rows: usize, texts: *const u8, length: usize, output: *mut u8, size: usize,
                answer: *mut u64, answers: usize) apply_write;
        }
    };
}

macro_rules! types {
    ($($call:ident $arguments:tt $($function:ident)*;)*) => {
        $(pub type $call = unsafe extern "C" fn $arguments -> u64;)*
    };
}

/// The functions of the objects whose names begin so.
macro_rules! functions {
    ($prefix:literal $($call:ident $arguments:tt $($function:ident)*;)*) => {
        extern "C" {
            $($(#[link_name = concat!($prefix, stringify!($function))]
            pub fn $function $arguments -> u64;)*)*
        }
    };
}

all_calls! { types }

/// The library.
pub mod archive {
    use super::pito_slot;
    all_calls! { functions "pito_" }
}

/// bench/careful by gcc.
pub mod gcc {
    use super::pito_slot;
    all_calls! { functions "gcc_" }
}

/// bench/careful by clang.
pub mod clang {
    use super::pito_slot;
    all_calls! { functions "clang_" }
}

/// Messages alone; what is written is filled ahead, and what is read stands in structs of the subject's own.
macro_rules! beside {
    ($prefix:literal) => {
        messages! { functions $prefix }
        extern "C" {
            #[link_name = concat!($prefix, "decoded")]
            pub fn decoded() -> *const u8;
            #[link_name = concat!($prefix, "forget")]
            pub fn forget();
            #[link_name = concat!($prefix, "envelope_prepare")]
            pub fn envelope_prepare(
                command: u64,
                payload: u64,
                error_code: u64,
                field: u64,
                bytes: *const u8,
                length: usize,
            );
            #[link_name = concat!($prefix, "response_prepare")]
            pub fn response_prepare(error_code: u64, field: u64, bytes: *const u8, length: usize);
            #[link_name = concat!($prefix, "information_prepare")]
            pub fn information_prepare(
                serial_number: *const u8,
                serial_number_length: usize,
                name: *const u8,
                name_length: usize,
                device_type: *const u8,
                device_type_length: usize,
                transports: *const u64,
                transports_length: usize,
            );
            #[link_name = concat!($prefix, "features_prepare")]
            pub fn features_prepare(features: u64, device_attributes: u64);
            #[link_name = concat!($prefix, "segment_prepare")]
            pub fn segment_prepare(
                name: *const u8,
                name_length: usize,
                offset: u64,
                segment_size: u64,
                signature: *const u8,
                signature_length: usize,
            );
            #[link_name = concat!($prefix, "apply_prepare")]
            pub fn apply_prepare(row: *const u64, rows: usize, texts: *const u8, length: usize);
        }
    };
}

/// Messages by nanopb.
pub mod nanopb {
    beside! { "nanopb_" }
    extern "C" {
        #[link_name = "nanopb_reply_prepare"]
        pub fn reply_prepare(
            command: u64,
            serial_number: *const u8,
            serial_number_length: usize,
            name: *const u8,
            name_length: usize,
            device_type: *const u8,
            device_type_length: usize,
            transports: *const u64,
            transports_length: usize,
            features: u64,
            device_attributes: u64,
        );
    }
}

/// Messages by protobuf-c.
pub mod pbc {
    beside! { "pbc_" }
}

/// A call of each subject that has all calls, as a list.
#[macro_export]
macro_rules! of_each {
    ($call:ident $function:ident) => {
        [
            (Subject::Archive, $crate::calls::archive::$function as $call),
            (Subject::Gcc, $crate::calls::gcc::$function as $call),
            (Subject::Clang, $crate::calls::clang::$function as $call),
            (Subject::Rust, $crate::rust::$function as $call),
        ]
    };
}

/// The same with nanopb and protobuf-c.
#[macro_export]
macro_rules! of_messages {
    ($call:ident $function:ident) => {
        [
            (Subject::Archive, $crate::calls::archive::$function as $call),
            (Subject::Gcc, $crate::calls::gcc::$function as $call),
            (Subject::Clang, $crate::calls::clang::$function as $call),
            (Subject::Rust, $crate::rust::$function as $call),
            (Subject::Nanopb, $crate::calls::nanopb::$function as $call),
            (Subject::ProtobufC, $crate::calls::pbc::$function as $call),
        ]
    };
}
