//! The field at a place of any message, known or not: document 01's rules for tags and values alone.

use crate::control::{Tokens, Wire};
use crate::refusal::Refusal;
use std::ops::Range;

/// What stands behind a tag.
#[derive(Clone, Debug, PartialEq, Eq)]
pub enum Content {
    /// A varint's 64 bits.
    Number(u64),
    /// The bytes of eight, of four, or behind a length.
    Part(Range<usize>),
}

/// A field as it stands in a message.
#[derive(Clone, Debug, PartialEq, Eq)]
pub struct Field {
    pub number: u64,
    pub wire: Wire,
    pub content: Content,
    /// The place behind it.
    pub next: usize,
}

impl Field {
    /// The field at a place: 31, 30 and 32 of its tag, then 31 and 30 of its value. Nothing is the
    /// end, at the message's last place and at any beyond.
    pub fn at(message: &[u8], place: u64) -> Result<Option<Field>, Refusal> {
        let Some(place) = usize::try_from(place).ok().filter(|&at| at < message.len()) else {
            return Ok(None);
        };
        let mut tokens = Tokens::over(message, place..message.len());
        let Some((number, wire)) = tokens.tag()? else {
            return Ok(None);
        };
        let content = match wire {
            Wire::Varint => Content::Number(tokens.varint()?),
            Wire::Eight => Content::Part(tokens.bytes(8)?),
            Wire::Delimited => Content::Part(tokens.part()?),
            Wire::Four => Content::Part(tokens.bytes(4)?),
        };
        Ok(Some(Field {
            number,
            wire,
            content,
            next: tokens.left.start,
        }))
    }
}
