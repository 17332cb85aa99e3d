//! Loops over Classic streams and payloads.

use crate::calls::{ExtractorFeed, ExtractorStep, FrameBegin, FramePart, FrameWrite};
use crate::digest::Digest;
use second::classic::LIMIT;
use std::hint::black_box;

const FRAME: u64 = 2;
/// The link that is measured has the limit of the worked cases.
pub const BUFFER: usize = second::classic::buffer(LIMIT);
const EMPTY: [u64; 4] = [LIMIT, 0, 0, 0];
/// An output that every frame fits.
pub const OUTPUT: usize = 2 * LIMIT as usize + 9;

/// A payload, its sequence byte, and the size of the output that it is written to.
pub struct Payload {
    pub sequence: u8,
    pub bytes: Vec<u8>,
    pub room: usize,
}

/// The stream in calls of so many bytes; a call that ends at a frame or refusal is made again with
/// the rest.
pub fn feed<const WHOLE: bool>(
    feed: ExtractorFeed,
    stream: &[u8],
    size: usize,
    buffer: &mut [u8],
) -> u64 {
    let feed = black_box(feed);
    let mut digest = Digest::<WHOLE>::new();
    let (mut state, mut answer) = (EMPTY, [0; 4]);
    for mut rest in stream.chunks(size) {
        while !rest.is_empty() {
            let number = unsafe {
                feed(
                    state.as_mut_ptr(),
                    state.len(),
                    buffer.as_mut_ptr(),
                    buffer.len(),
                    rest.as_ptr(),
                    rest.len(),
                    answer.as_mut_ptr(),
                    answer.len(),
                )
            };
            digest.number(number);
            digest.row(&answer);
            if answer[0] == FRAME {
                digest.bytes(&buffer[..answer[3] as usize]);
            }
            rest = &rest[answer[1] as usize..];
        }
    }
    digest.row(&state);
    digest.bytes(buffer);
    digest.value()
}

pub fn step<const WHOLE: bool>(step: ExtractorStep, stream: &[u8], buffer: &mut [u8]) -> u64 {
    let step = black_box(step);
    let mut digest = Digest::<WHOLE>::new();
    let (mut state, mut answer) = (EMPTY, [0; 3]);
    for &byte in stream {
        let number = unsafe {
            step(
                state.as_mut_ptr(),
                state.len(),
                buffer.as_mut_ptr(),
                buffer.len(),
                byte,
                answer.as_mut_ptr(),
                answer.len(),
            )
        };
        digest.number(number);
        digest.row(&answer);
        if answer[0] == FRAME {
            digest.bytes(&buffer[..answer[2] as usize]);
        }
    }
    digest.row(&state);
    digest.bytes(buffer);
    digest.value()
}

pub fn write<const WHOLE: bool>(write: FrameWrite, payloads: &[Payload], output: &mut [u8]) -> u64 {
    let write = black_box(write);
    let mut digest = Digest::<WHOLE>::new();
    let mut answer = [0];
    for payload in payloads {
        let number = unsafe {
            write(
                u64::from(payload.sequence),
                LIMIT,
                payload.bytes.as_ptr(),
                payload.bytes.len(),
                output.as_mut_ptr(),
                payload.room,
                answer.as_mut_ptr(),
                answer.len(),
            )
        };
        digest.number(number);
        digest.row(&answer);
        digest.bytes(&output[..answer[0] as usize]);
    }
    digest.bytes(output);
    digest.value()
}

/// The payloads by parts, all that is left offered to each call: `room` is the size of each output.
pub fn parts<const WHOLE: bool>(
    calls: (FrameBegin, FramePart),
    payloads: &[Payload],
    output: &mut [u8],
) -> u64 {
    let (begin, part) = black_box(calls);
    let mut digest = Digest::<WHOLE>::new();
    let (mut state, mut answer) = ([0; 7], [0; 3]);
    for payload in payloads {
        let sequence = u64::from(payload.sequence);
        let total = payload.bytes.len() as u64;
        let number = unsafe { begin(sequence, LIMIT, total, state.as_mut_ptr(), state.len()) };
        digest.number(number);
        let mut rest = &payload.bytes[..];
        loop {
            let number = unsafe {
                part(
                    state.as_mut_ptr(),
                    state.len(),
                    rest.as_ptr(),
                    rest.len(),
                    output.as_mut_ptr(),
                    payload.room,
                    answer.as_mut_ptr(),
                    answer.len(),
                )
            };
            digest.number(number);
            digest.row(&answer);
            digest.bytes(&output[..answer[1] as usize]);
            rest = &rest[answer[0] as usize..];
            if answer[2] == 1 {
                break;
            }
        }
    }
    digest.row(&state);
    digest.bytes(output);
    digest.value()
}
