//! What the archive tells as numbers, as slices and strings. It is proved that parts lie within what was read or written,
//! that strings are well-formed UTF-8 (by the table that `str` goes by) and that streams are 0, 2 or 6. It is looked at all
//! the same: `from_utf8_unchecked` would rest the memory safety of this crate's users on the archive that was linked, and
//! a second look at short strings costs little. Were one of these ever not so, the answer would be [`Refusal::Unfit`], and
//! no panic.

use crate::{Refusal, Stream};
use core::ops::Range;

fn range(start: u64, length: u64) -> Range<usize> {
    start as usize..start.saturating_add(length) as usize
}

pub fn part(bytes: &[u8], start: u64, length: u64) -> Result<&[u8], Refusal> {
    bytes.get(range(start, length)).ok_or(Refusal::Unfit)
}

pub fn text(bytes: &[u8], start: u64, length: u64) -> Result<&str, Refusal> {
    core::str::from_utf8(part(bytes, start, length)?).map_err(|_| Refusal::Unfit)
}

pub fn written(output: &mut [u8], count: u64) -> Result<&[u8], Refusal> {
    part(output, 0, count)
}

pub fn stream(number: u64) -> Result<Stream, Refusal> {
    Stream::of(number).ok_or(Refusal::Unfit)
}

/// Moves the slice behind the bytes that were used.
pub fn use_up(bytes: &mut &[u8], used: u64) {
    *bytes = bytes.get(used as usize..).unwrap_or(&[]);
}

/// A signed number of 32 bits, as rows have it, and back.
pub fn signed(number: u64) -> i32 {
    number as i32
}

pub fn row_number(number: i32) -> u64 {
    number as i64 as u64
}
