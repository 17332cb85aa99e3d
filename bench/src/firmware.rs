//! Loops over firmware messages.

use crate::calls::*;
use crate::control::{read, write_each, Reader};
use std::hint::black_box;

/// The row of an ApplyFirmware: its length, that of the reader's answer, and where both have the start
/// of a part.
pub const ROW: usize = 57;
const ANSWER: usize = 59;
const STARTS: [usize; 19] = [
    2, 4, 6, 10, 13, 16, 19, 22, 25, 28, 31, 34, 37, 40, 43, 46, 49, 52, 55,
];

pub fn read_segment<const WHOLE: bool>(reader: Reader, messages: &[Vec<u8>]) -> u64 {
    read::<WHOLE, 8>(reader, messages, &[0, 4])
}

pub fn read_apply<const WHOLE: bool>(reader: Reader, messages: &[Vec<u8>]) -> u64 {
    read::<WHOLE, ANSWER>(reader, messages, &STARTS)
}

/// What is written: the arguments of each writer.
pub struct SegmentGiven {
    pub name: Vec<u8>,
    pub size: u64,
    pub signature: Vec<u8>,
}

pub struct ApplyGiven {
    pub row: [u64; ROW],
    pub texts: Vec<u8>,
}

pub fn segment_write<const WHOLE: bool>(
    write: SegmentWrite,
    messages: &[SegmentGiven],
    rounds: usize,
) -> u64 {
    let write = black_box(write);
    write_each::<WHOLE, 3, _>(messages, rounds, |given, output, answer| unsafe {
        write(
            given.name.as_ptr(),
            given.name.len(),
            0,
            given.size,
            given.signature.as_ptr(),
            given.signature.len(),
            output.as_mut_ptr(),
            output.len(),
            answer.as_mut_ptr(),
            answer.len(),
        )
    })
}

pub fn apply_write<const WHOLE: bool>(
    write: ApplyWrite,
    messages: &[ApplyGiven],
    rounds: usize,
) -> u64 {
    let write = black_box(write);
    write_each::<WHOLE, 3, _>(messages, rounds, |given, output, answer| unsafe {
        write(
            given.row.as_ptr(),
            given.row.len(),
            given.texts.as_ptr(),
            given.texts.len(),
            output.as_mut_ptr(),
            output.len(),
            answer.as_mut_ptr(),
            answer.len(),
        )
    })
}
