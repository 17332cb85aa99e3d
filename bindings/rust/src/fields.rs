//! Any message, field by field.

use crate::calls;
use crate::sizes;
use crate::{told, Refusal};

/// A field of a message.
#[derive(Clone, Copy, Debug, PartialEq, Eq)]
pub struct Field<'a> {
    /// 1 to 536,870,911.
    pub number: u32,
    /// What it holds.
    pub value: Value<'a>,
}

/// The value of a field, by its kind.
#[derive(Clone, Copy, Debug, PartialEq, Eq)]
pub enum Value<'a> {
    /// A number of up to 64 bits.
    Varint(u64),
    /// Eight bytes, the lowest first.
    EightBytes(&'a [u8]),
    /// As many bytes as the field's own length says.
    Bytes(&'a [u8]),
    /// Four bytes, the lowest first.
    FourBytes(&'a [u8]),
}

/// The fields of any message, as of a member whose schema is not this library's: an iterator that ends after the first
/// refusal (31, 32, 30).
///
/// ```
/// use pitokaenge::{Field, Fields, Refusal, Value};
///
/// let mut fields = Fields::of(b"\x08\x5E\x4A\x02AB\x0D");
/// assert_eq!(fields.next(), Some(Ok(Field { number: 1, value: Value::Varint(94) })));
/// assert_eq!(fields.next(), Some(Ok(Field { number: 9, value: Value::Bytes(b"AB") })));
/// assert_eq!(fields.next(), Some(Err(Refusal::MessageCut)));
/// assert_eq!(fields.next(), None);
/// ```
#[must_use = "an iterator does nothing until it is asked for the next"]
#[derive(Clone, Debug)]
pub struct Fields<'a> {
    message: &'a [u8],
    /// Of the next field, until the end or a refusal.
    place: Option<u64>,
}

impl<'a> Fields<'a> {
    /// Of any bytes.
    pub fn of(message: &'a [u8]) -> Fields<'a> {
        Fields {
            message,
            place: Some(0),
        }
    }

    /// The field at a place and the place behind it, or the end.
    fn read(&self, place: u64) -> Result<Option<(Field<'a>, u64)>, Refusal> {
        let row = calls::pito_field_read(self.message, place)?;
        if row.outcome == sizes::END {
            return Ok(None);
        }
        let bytes = told::part(self.message, row.start, row.length)?;
        let value = match row.kind {
            sizes::KIND_VARINT => Value::Varint(row.value),
            sizes::KIND_EIGHT_BYTES => Value::EightBytes(bytes),
            sizes::KIND_BYTES => Value::Bytes(bytes),
            sizes::KIND_FOUR_BYTES => Value::FourBytes(bytes),
            _ => return Err(Refusal::Unfit),
        };
        let number = row.number as u32;
        Ok(Some((Field { number, value }, row.next)))
    }
}

impl<'a> Iterator for Fields<'a> {
    type Item = Result<Field<'a>, Refusal>;

    fn next(&mut self) -> Option<Result<Field<'a>, Refusal>> {
        let place = self.place.take()?;
        match self.read(place) {
            Ok(Some((field, next))) => {
                self.place = Some(next);
                Some(Ok(field))
            }
            Ok(None) => None,
            Err(refusal) => Some(Err(refusal)),
        }
    }
}
