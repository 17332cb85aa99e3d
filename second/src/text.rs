//! Change request No. 3: "proto3 strings must be UTF-8", "well formed by the nine rows of Unicode's
//! Table 3-7, kept as one constant table".

use crate::refusal::{Broken, Refusal};
use std::ops::RangeInclusive;

const TAIL: RangeInclusive<u8> = 0x80..=0xBF;

/// The nine rows: a range for each byte of a sequence.
const ROWS: [&[RangeInclusive<u8>]; 9] = [
    &[0x00..=0x7F],
    &[0xC2..=0xDF, TAIL],
    &[0xE0..=0xE0, 0xA0..=0xBF, TAIL],
    &[0xE1..=0xEC, TAIL, TAIL],
    &[0xED..=0xED, 0x80..=0x9F, TAIL],
    &[0xEE..=0xEF, TAIL, TAIL],
    &[0xF0..=0xF0, 0x90..=0xBF, TAIL, TAIL],
    &[0xF1..=0xF3, TAIL, TAIL, TAIL],
    &[0xF4..=0xF4, 0x80..=0x8F, TAIL, TAIL],
];

/// How many bytes the sequence has that the bytes begin with, if a row describes one.
fn sequence(bytes: &[u8]) -> Option<usize> {
    let described = |row: &&&[RangeInclusive<u8>]| {
        row.len() <= bytes.len()
            && row
                .iter()
                .zip(bytes)
                .all(|(range, byte)| range.contains(byte))
    };
    ROWS.iter().find(described).map(|row| row.len())
}

/// "the place in it of the first bad sequence", where that begins.
pub fn bad_place(text: &[u8]) -> Option<usize> {
    let mut place = 0;
    while place < text.len() {
        match sequence(&text[place..]) {
            Some(length) => place += length,
            None => return Some(place),
        }
    }
    None
}

/// The characters that a terminal or a page would follow and not show (docs/FORMATS.md, "Text").
const HIDDEN: [RangeInclusive<u32>; 7] = [
    0x0000..=0x001F,
    0x007F..=0x007F,
    0x0080..=0x009F,
    0x061C..=0x061C,
    0x200E..=0x200F,
    0x2028..=0x202E,
    0x2066..=0x2069,
];

/// The character that the bytes begin with, by its number.
fn character(bytes: &[u8]) -> Option<u32> {
    let (&first, tail) = bytes[..sequence(bytes)?].split_first()?;
    let lead = match tail.len() {
        0 => first,
        more => first & (0x3F >> more),
    };
    let joined = |sum: u32, byte: &u8| sum << 6 | u32::from(byte & 0x3F);
    Some(tail.iter().fold(lead.into(), joined))
}

/// The place of the first character that is not shown, whatever stands before it.
pub fn hidden_place(text: &[u8]) -> Option<usize> {
    let is_hidden = |&place: &usize| {
        let number = character(&text[place..]);
        number.is_some_and(|number| HIDDEN.iter().any(|range| range.contains(&number)))
    };
    (0..text.len()).find(is_hidden)
}

/// "36 a string not well formed, told with its field and the place"
pub fn judge(field: u64, text: &[u8]) -> Result<(), Broken> {
    match bad_place(text) {
        None => Ok(()),
        Some(place) => Err(Broken {
            refusal: Refusal::Text,
            field: Some(field),
            place: Some(place as u64),
        }),
    }
}

#[cfg(test)]
mod tests {
    use super::bad_place;

    /// Rust's own decoder, which tells up to where a string is well formed.
    fn rusts(text: &[u8]) -> Option<usize> {
        std::str::from_utf8(text)
            .err()
            .map(|error| error.valid_up_to())
    }

    #[test]
    fn by_hand() {
        assert_eq!(bad_place(b""), None);
        assert_eq!(bad_place(&[0x41, 0xE2, 0x82, 0x41]), Some(1));
        assert_eq!(bad_place(&[0xED, 0xA0, 0x80]), Some(0));
        assert_eq!(bad_place(&[0x41, 0x80]), Some(1));
        assert_eq!(bad_place(&[0xC3]), Some(0));
        assert_eq!(bad_place(&[0xF4, 0x8F, 0xBF, 0xBF]), None);
        assert_eq!(bad_place(&[0xF4, 0x90, 0x80, 0x80]), Some(0));
    }

    #[test]
    fn all_of_up_to_three_bytes() {
        for a in 0..=255 {
            assert_eq!(bad_place(&[a]), rusts(&[a]));
            for b in 0..=255 {
                assert_eq!(bad_place(&[a, b]), rusts(&[a, b]));
                for c in 0..=255 {
                    assert_eq!(bad_place(&[a, b, c]), rusts(&[a, b, c]));
                }
            }
        }
    }

    /// Four bytes, each at the edges of the table's ranges, and what follows them.
    #[test]
    fn four_bytes_at_the_edges() {
        let edges = [
            0x00, 0x41, 0x7F, 0x80, 0x8F, 0x90, 0x9F, 0xA0, 0xBF, 0xC0, 0xC1, 0xC2, 0xDF, 0xE0,
            0xE1, 0xEC, 0xED, 0xEE, 0xEF, 0xF0, 0xF1, 0xF3, 0xF4, 0xF5, 0xFF,
        ];
        for a in edges {
            for b in edges {
                for c in edges {
                    for d in edges {
                        for text in [&[a, b, c, d][..], &[0x41, a, b, c, d], &[a, b, c, d, 0x41]] {
                            assert_eq!(bad_place(text), rusts(text));
                        }
                    }
                }
            }
        }
    }
}
