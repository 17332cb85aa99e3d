//! The face of the firmware messages and of the reader of any field.

use super::{ask, fault_out, part_out, wide, wish_in};
use crate::control::Wire;
use crate::field::{Content, Field};
use crate::firmware::{self, Apply, Component, Information, Segment, COMPONENTS};
use crate::refusal::Refusal;
use std::ops::Range;

/// The numbers of an ApplyFirmware before its components, and of each component.
const AHEAD: usize = 9;
const EACH: usize = 6;
/// The row of an ApplyFirmware.
const ROW: usize = AHEAD + EACH * COMPONENTS;

/// An unsigned number of 32 bits from a row.
fn unsigned_in(number: u64) -> Result<u32, Refusal> {
    u32::try_from(number).map_err(|_| Refusal::Argument)
}

/// A part from a row; whether it lies in the texts is not judged here.
fn part_in(start: u64, length: u64) -> Result<Range<usize>, Refusal> {
    let end = start.checked_add(length).ok_or(Refusal::Argument)?;
    let place = |number| usize::try_from(number).map_err(|_| Refusal::Argument);
    Ok(place(start)?..place(end)?)
}

/// Answer `name.start, .length, offset, size, signature.start, .length, field, place`.
pub fn segment_read(message: &[u8], answer: &mut [u64]) -> u64 {
    ask(answer, || {
        let told = Segment::read(message).map_err(fault_out::<8>)?;
        let [name, name_length] = part_out(&told.component_name);
        let [signature, signature_length] = part_out(&told.segment_signature);
        Ok([
            name,
            name_length,
            u64::from(told.component_offset),
            u64::from(told.segment_size),
            signature,
            signature_length,
            0,
            0,
        ])
    })
}

/// Answer `written, field, place`.
pub fn segment_write(
    name: &[u8],
    offset: u64,
    size: u64,
    signature: &[u8],
    output: &mut [u8],
    answer: &mut [u64],
) -> u64 {
    ask(answer, || {
        let (offset, size) = (unsigned_in(offset)?, unsigned_in(size)?);
        let written = firmware::write_segment(name, offset, size, signature, output)
            .map_err(fault_out::<3>)?;
        Ok([wide(written), 0, 0])
    })
}

/// Answer `restart_required, version, name.start, .length, locale.start, .length,
/// version_name.start, .length, components` and eight times `version, name.start, .length, size,
/// signature.start, .length`, 0 where there are fewer, then `field, place`.
pub fn apply_read(message: &[u8], answer: &mut [u64]) -> u64 {
    ask(answer, || {
        let told = Apply::read(message).map_err(fault_out::<{ ROW + 2 }>)?;
        let information = &told.information;
        let mut row = [0; ROW + 2];
        row[0] = u64::from(told.restart_required);
        row[1] = u64::from(information.version);
        row[2..4].copy_from_slice(&part_out(&information.name));
        row[4..6].copy_from_slice(&part_out(&information.locale));
        row[6..8].copy_from_slice(&part_out(&information.version_name));
        row[8] = wide(information.components.len());
        for (cells, component) in row[AHEAD..ROW]
            .chunks_mut(EACH)
            .zip(&information.components)
        {
            cells[0] = u64::from(component.version);
            cells[1..3].copy_from_slice(&part_out(&component.name));
            cells[3] = u64::from(component.size);
            cells[4..6].copy_from_slice(&part_out(&component.signature));
        }
        Ok(row)
    })
}

fn component_in(row: &[u64]) -> Result<Component, Refusal> {
    Ok(Component {
        version: unsigned_in(row[0])?,
        name: part_in(row[1], row[2])?,
        size: unsigned_in(row[3])?,
        signature: part_in(row[4], row[5])?,
    })
}

/// Components from the count on are not looked at.
fn apply_in(row: &[u64; ROW]) -> Result<Apply, Refusal> {
    let count = usize::try_from(row[8])
        .ok()
        .filter(|&count| count <= COMPONENTS)
        .ok_or(Refusal::Argument)?;
    Ok(Apply {
        restart_required: wish_in(row[0]).ok_or(Refusal::Argument)?,
        information: Information {
            version: unsigned_in(row[1])?,
            name: part_in(row[2], row[3])?,
            locale: part_in(row[4], row[5])?,
            version_name: part_in(row[6], row[7])?,
            components: row[AHEAD..]
                .chunks(EACH)
                .take(count)
                .map(component_in)
                .collect::<Result<_, _>>()?,
        },
    })
}

/// The row as the reader tells it, without field and place, its parts places in the texts; answer
/// `written, field, place`.
pub fn apply_write(row: &[u64], texts: &[u8], output: &mut [u8], answer: &mut [u64]) -> u64 {
    ask(answer, || {
        let row = row.try_into().map_err(|_| Refusal::Lent)?;
        let written =
            firmware::write_apply(texts, &apply_in(row)?, output).map_err(fault_out::<3>)?;
        Ok([wide(written), 0, 0])
    })
}

/// The wire type's number.
fn kind(wire: Wire) -> u64 {
    match wire {
        Wire::Varint => 0,
        Wire::Eight => 1,
        Wire::Delimited => 2,
        Wire::Four => 5,
    }
}

/// Answer `outcome, number, kind, value, start, length, next` with outcome 0 the end, 1 a field. The
/// value is a varint's, else 0; start and length are those of the bytes, 0 for a varint.
pub fn field_read(message: &[u8], place: u64, answer: &mut [u64]) -> u64 {
    ask(answer, || {
        Ok(match Field::at(message, place)? {
            None => [0; 7],
            Some(field) => {
                let (value, [start, length]) = match &field.content {
                    Content::Number(value) => (*value, [0, 0]),
                    Content::Part(part) => (0, part_out(part)),
                };
                [
                    1,
                    field.number,
                    kind(field.wire),
                    value,
                    start,
                    length,
                    wide(field.next),
                ]
            }
        })
    })
}
