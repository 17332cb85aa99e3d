//! Loops over control messages.

use crate::calls::*;
use crate::digest::Digest;
use std::hint::black_box;

/// More than any message of the bench has.
pub const OUTPUT: usize = 512;

/// A reader, and where its parts stand: in the message, or in a struct of the reader's own.
#[derive(Clone, Copy)]
pub struct Reader {
    pub read: MessageRead,
    pub decoded: Option<*const u8>,
}

impl Reader {
    pub fn in_message(read: MessageRead) -> Reader {
        Reader {
            read,
            decoded: None,
        }
    }
}

/// Every message in order. `starts` are the cells of the answer with a part's start, each before
/// its length; they count by the bytes that stand there.
pub fn read<const WHOLE: bool, const CELLS: usize>(
    reader: Reader,
    messages: &[Vec<u8>],
    starts: &[usize],
) -> u64 {
    let read = black_box(reader.read);
    let mut digest = Digest::<WHOLE>::new();
    let mut answer = [0; CELLS];
    for message in messages {
        let number = unsafe { read(message.as_ptr(), message.len(), answer.as_mut_ptr(), CELLS) };
        digest.number(number);
        if WHOLE {
            let base = reader.decoded.unwrap_or(message.as_ptr());
            for &cell in starts {
                let start = std::mem::take(&mut answer[cell]) as usize;
                let length = answer[cell + 1] as usize;
                let part = unsafe { std::slice::from_raw_parts(base.wrapping_add(start), length) };
                digest.bytes(part);
            }
            digest.row(&answer);
        }
    }
    digest.value()
}

pub fn read_envelope<const WHOLE: bool>(reader: Reader, messages: &[Vec<u8>]) -> u64 {
    read::<WHOLE, 6>(reader, messages, &[4])
}

pub fn read_response<const WHOLE: bool>(reader: Reader, messages: &[Vec<u8>]) -> u64 {
    read::<WHOLE, 4>(reader, messages, &[2])
}

pub fn read_information<const WHOLE: bool>(reader: Reader, messages: &[Vec<u8>]) -> u64 {
    read::<WHOLE, 17>(reader, messages, &[0, 2, 4])
}

pub fn read_features<const WHOLE: bool>(reader: Reader, messages: &[Vec<u8>]) -> u64 {
    read::<WHOLE, 2>(reader, messages, &[])
}

/// Every field of every message, place after place.
pub fn read_fields<const WHOLE: bool>(read: FieldRead, messages: &[Vec<u8>]) -> u64 {
    const NEXT: usize = 6;
    let read = black_box(read);
    let mut digest = Digest::<WHOLE>::new();
    let mut answer = [0; 7];
    for message in messages {
        let mut place = 0;
        while place < message.len() as u64 {
            let (start, length) = (message.as_ptr(), message.len());
            let number = unsafe { read(start, length, place, answer.as_mut_ptr(), answer.len()) };
            digest.number(number);
            digest.row(&answer);
            place = answer[NEXT];
        }
    }
    digest.value()
}

/// What is written: the arguments of each writer.
pub struct EnvelopeGiven {
    pub command: u64,
    pub payload: u64,
    pub error_code: u64,
    pub field: u64,
    pub bytes: Vec<u8>,
}

pub struct ResponseGiven {
    pub error_code: u64,
    pub field: u64,
    pub bytes: Vec<u8>,
}

pub struct InformationGiven {
    pub strings: [Vec<u8>; 3],
    pub transports: Vec<u64>,
}

pub struct FeaturesGiven {
    pub features: u64,
    pub device_attributes: u64,
}

/// Writes each of the messages `rounds` times, in order: `write` puts one into the output and gives
/// number and size.
#[inline(always)]
pub fn write_each<const WHOLE: bool, const CELLS: usize, T>(
    messages: &[T],
    rounds: usize,
    write: impl Fn(&T, &mut [u8; OUTPUT], &mut [u64; CELLS]) -> u64,
) -> u64 {
    let mut digest = Digest::<WHOLE>::new();
    let (mut output, mut answer) = ([0; OUTPUT], [0; CELLS]);
    for _ in 0..rounds {
        for message in messages {
            digest.number(write(message, &mut output, &mut answer));
            if WHOLE {
                digest.row(&answer);
                digest.bytes(&output[..answer[0] as usize]);
            }
        }
    }
    digest.value()
}

pub fn envelope_write<const WHOLE: bool>(
    write: EnvelopeWrite,
    messages: &[EnvelopeGiven],
    rounds: usize,
) -> u64 {
    let write = black_box(write);
    write_each::<WHOLE, 1, _>(messages, rounds, |given, output, answer| unsafe {
        write(
            given.command,
            given.payload,
            given.error_code,
            given.field,
            given.bytes.as_ptr(),
            given.bytes.len(),
            output.as_mut_ptr(),
            output.len(),
            answer.as_mut_ptr(),
            answer.len(),
        )
    })
}

pub fn response_write<const WHOLE: bool>(
    write: ResponseWrite,
    messages: &[ResponseGiven],
    rounds: usize,
) -> u64 {
    let write = black_box(write);
    write_each::<WHOLE, 1, _>(messages, rounds, |given, output, answer| unsafe {
        write(
            given.error_code,
            given.field,
            given.bytes.as_ptr(),
            given.bytes.len(),
            output.as_mut_ptr(),
            output.len(),
            answer.as_mut_ptr(),
            answer.len(),
        )
    })
}

pub fn information_write<const WHOLE: bool>(
    write: InformationWrite,
    messages: &[InformationGiven],
    rounds: usize,
) -> u64 {
    let write = black_box(write);
    write_each::<WHOLE, 3, _>(messages, rounds, |given, output, answer| {
        let [serial_number, name, device_type] = &given.strings;
        unsafe {
            write(
                serial_number.as_ptr(),
                serial_number.len(),
                name.as_ptr(),
                name.len(),
                device_type.as_ptr(),
                device_type.len(),
                given.transports.as_ptr(),
                given.transports.len(),
                output.as_mut_ptr(),
                output.len(),
                answer.as_mut_ptr(),
                answer.len(),
            )
        }
    })
}

pub fn features_write<const WHOLE: bool>(
    write: FeaturesWrite,
    messages: &[FeaturesGiven],
    rounds: usize,
) -> u64 {
    let write = black_box(write);
    write_each::<WHOLE, 1, _>(messages, rounds, |given, output, answer| unsafe {
        write(
            given.features,
            given.device_attributes,
            output.as_mut_ptr(),
            output.len(),
            answer.as_mut_ptr(),
            answer.len(),
        )
    })
}
