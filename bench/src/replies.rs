//! Loops over replies to the handshake.

use crate::calls::*;
use crate::control::{write_each, FeaturesGiven, InformationGiven, OUTPUT};
use second::low_energy::{Stream, Wish};
use std::cell::RefCell;
use std::hint::black_box;

/// The member numbers of tools/control.proto, the link's limit, and what all packets share.
pub const INFORMATION: u64 = 3;
pub const FEATURES: u64 = 9;
const LIMIT: u64 = 4_096;
const WISH: Wish = Wish {
    stream: Stream::Control,
    id: 5,
    sequence: 3,
    ack: false,
};

/// A question, and what the box says of itself.
pub struct Asked {
    pub command: u64,
    pub message: Vec<u8>,
    pub information: InformationGiven,
    pub features: FeaturesGiven,
}

pub fn write<const WHOLE: bool>(
    write: ReplyWrite,
    asked: &[Asked],
    rounds: usize,
    room: usize,
) -> u64 {
    let write = black_box(write);
    write_each::<WHOLE, 3, _>(asked, rounds, |asked, output, answer| {
        let [serial_number, name, device_type] = &asked.information.strings;
        unsafe {
            write(
                asked.message.as_ptr(),
                asked.message.len(),
                serial_number.as_ptr(),
                serial_number.len(),
                name.as_ptr(),
                name.len(),
                device_type.as_ptr(),
                device_type.len(),
                asked.information.transports.as_ptr(),
                asked.information.transports.len(),
                asked.features.features,
                asked.features.device_attributes,
                INFORMATION,
                FEATURES,
                room as u64,
                LIMIT,
                u64::from(WISH.id),
                u64::from(WISH.sequence),
                output.as_mut_ptr(),
                output.len(),
                answer.as_mut_ptr(),
                answer.len(),
            )
        }
    })
}

/// The question read and the envelope encoded by nanopb, then cut into packets by the archive's packet writer.
pub fn write_nanopb<const WHOLE: bool>(asked: &[Asked], rounds: usize, room: usize) -> u64 {
    let (read, encode, write) = black_box((
        nanopb::envelope_read as MessageRead,
        nanopb::envelope_write as EnvelopeWrite,
        archive::packet_write as PacketWrite,
    ));
    let envelope = RefCell::new([0; OUTPUT]);
    write_each::<WHOLE, 3, _>(asked, rounds, |asked, output, answer| unsafe {
        let mut envelope = envelope.borrow_mut();
        let mut row = [0; 6];
        let question = &asked.message;
        let mut number = read(
            question.as_ptr(),
            question.len(),
            row.as_mut_ptr(),
            row.len(),
        );
        let command = row[0];
        number |= encode(
            command,
            0,
            0,
            0,
            std::ptr::null(),
            0,
            envelope.as_mut_ptr(),
            envelope.len(),
            row.as_mut_ptr(),
            1,
        );
        let message = &envelope[..row[0] as usize];
        let (mut at, mut place) = (0, 0);
        while place < message.len() as u64 {
            let part = &mut output[at..];
            number |= write(
                room as u64,
                LIMIT,
                u64::from(WISH.stream.number()),
                u64::from(WISH.id),
                u64::from(WISH.sequence),
                u64::from(WISH.ack),
                message.as_ptr(),
                message.len(),
                place,
                part.as_mut_ptr(),
                part.len(),
                row.as_mut_ptr(),
                2,
            );
            at += row[0] as usize;
            place = row[1];
        }
        *answer = [at as u64, 0, 0];
        number
    })
}
