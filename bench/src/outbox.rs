//! Loops over outboxes.

use crate::calls::{OutboxAppend, OutboxRecord, OutboxTo, OutboxWhole, Text};
use crate::digest::Digest;
use std::hint::black_box;

const ALEXA: u64 = 6;
const END: u64 = 0;

/// Each payload appended after the same used bytes, which are the first of `bytes`.
pub fn append<const WHOLE: bool>(
    append: OutboxAppend,
    bytes: &mut [u8],
    used: usize,
    payloads: &[Vec<u8>],
) -> u64 {
    let append = black_box(append);
    let mut digest = Digest::<WHOLE>::new();
    let mut answer = [0; 2];
    for payload in payloads {
        let number = unsafe {
            append(
                bytes.as_mut_ptr(),
                bytes.len(),
                used as u64,
                ALEXA,
                payload.as_ptr(),
                payload.len(),
                answer.as_mut_ptr(),
                answer.len(),
            )
        };
        digest.number(number);
        digest.row(&answer);
        digest.bytes(&bytes[used..answer[0] as usize]);
    }
    digest.bytes(bytes);
    digest.value()
}

/// Every record of an outbox, place after place, as often as is said.
pub fn records<const WHOLE: bool>(record: OutboxRecord, bytes: &[u8], rounds: usize) -> u64 {
    let record = black_box(record);
    let mut digest = Digest::<WHOLE>::new();
    let mut answer = [0; 6];
    for _ in 0..rounds {
        let mut place = 1;
        loop {
            let number = unsafe {
                record(
                    bytes.as_ptr(),
                    bytes.len(),
                    place,
                    answer.as_mut_ptr(),
                    answer.len(),
                )
            };
            digest.number(number);
            digest.row(&answer);
            if answer[0] == END {
                break;
            }
            digest.bytes(&bytes[answer[2] as usize..][..answer[3] as usize]);
            place = answer[4];
        }
    }
    digest.value()
}

pub fn whole<const WHOLE: bool>(whole: OutboxWhole, bytes: &[u8], rounds: usize) -> u64 {
    let whole = black_box(whole);
    let mut digest = Digest::<WHOLE>::new();
    let mut answer = [0];
    for _ in 0..rounds {
        let number = unsafe {
            whole(
                bytes.as_ptr(),
                bytes.len(),
                answer.as_mut_ptr(),
                answer.len(),
            )
        };
        digest.number(number);
        digest.row(&answer);
    }
    digest.value()
}

/// Each payload judged as text.
pub fn texts<const WHOLE: bool>(text: Text, payloads: &[Vec<u8>]) -> u64 {
    let text = black_box(text);
    let mut digest = Digest::<WHOLE>::new();
    let mut answer = [0; 2];
    for payload in payloads {
        let number = unsafe {
            text(
                payload.as_ptr(),
                payload.len(),
                answer.as_mut_ptr(),
                answer.len(),
            )
        };
        digest.number(number);
        digest.row(&answer);
    }
    digest.value()
}

/// The outbox written as another version, as often as is said.
pub fn moved<const WHOLE: bool>(
    moved: OutboxTo,
    bytes: &[u8],
    rounds: usize,
    output: &mut [u8],
) -> u64 {
    let moved = black_box(moved);
    let mut digest = Digest::<WHOLE>::new();
    let mut answer = [0; 2];
    for _ in 0..rounds {
        let number = unsafe {
            moved(
                bytes.as_ptr(),
                bytes.len(),
                output.as_mut_ptr(),
                output.len(),
                answer.as_mut_ptr(),
                answer.len(),
            )
        };
        digest.number(number);
        digest.row(&answer);
    }
    digest.bytes(output);
    digest.value()
}
