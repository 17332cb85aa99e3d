//! Loops over Low Energy packets.

use crate::calls::{
    pito_slot, AckWrite, CaptureJudge, CapturePacket, PacketRead, PacketWrite, ReceiverAccept,
    ReportAdd,
};
use crate::digest::Digest;
use second::classic::LIMIT;
use second::low_energy::{self, Stream, Wish, SLOTS};
use std::hint::black_box;

const FINISHED: u64 = 1;
/// The sequence of every ACK that a packet wants.
const ANSWER: u64 = 9;
pub const BUFFER: usize = low_energy::buffer(LIMIT);
/// What all packets of the bench share; the stream is Alexa's.
pub const WISH: Wish = Wish {
    stream: Stream::Alexa,
    id: 5,
    sequence: 3,
    ack: true,
};

/// Every packet of every message, place after place.
pub fn write<const WHOLE: bool>(write: PacketWrite, messages: &[Vec<u8>], room: usize) -> u64 {
    let write = black_box(write);
    let mut digest = Digest::<WHOLE>::new();
    let (mut output, mut answer) = ([0; 512], [0; 2]);
    for message in messages {
        let mut place = 0;
        loop {
            let number = unsafe {
                write(
                    room as u64,
                    LIMIT,
                    u64::from(WISH.stream.number()),
                    u64::from(WISH.id),
                    u64::from(WISH.sequence),
                    u64::from(WISH.ack),
                    message.as_ptr(),
                    message.len(),
                    place,
                    output.as_mut_ptr(),
                    output.len(),
                    answer.as_mut_ptr(),
                    answer.len(),
                )
            };
            digest.number(number);
            digest.row(&answer);
            digest.bytes(&output[..answer[0] as usize]);
            place = answer[1];
            if place == message.len() as u64 {
                break;
            }
        }
    }
    digest.bytes(&output);
    digest.value()
}

/// ACKs and NACKs by turns, of each id and sequence.
pub fn write_acks<const WHOLE: bool>(write: AckWrite, count: usize) -> u64 {
    let write = black_box(write);
    let mut digest = Digest::<WHOLE>::new();
    let (mut output, mut answer) = ([0; 6], [0]);
    for turn in 0..count as u64 {
        let number = unsafe {
            write(
                u64::from(WISH.stream.number()),
                turn % 16,
                turn / 16 % 16,
                turn % 2,
                output.as_mut_ptr(),
                output.len(),
                answer.as_mut_ptr(),
                answer.len(),
            )
        };
        digest.number(number);
        digest.row(&answer);
        digest.bytes(&output);
    }
    digest.value()
}

/// Every packet in order, from the state with no open transaction, each with the buffer for its ACK.
pub fn accept<const WHOLE: bool>(
    accept: ReceiverAccept,
    packets: &[Vec<u8>],
    buffer: &mut [u8],
) -> u64 {
    let accept = black_box(accept);
    let mut digest = Digest::<WHOLE>::new();
    let (state, mut row) = ([LIMIT], [IDLE; SLOTS]);
    let (mut answer, mut ack) = ([0; 8], [0; 6]);
    for packet in packets {
        let number = unsafe {
            accept(
                state.as_ptr(),
                state.len(),
                row.as_mut_ptr(),
                row.len(),
                buffer.as_mut_ptr(),
                buffer.len(),
                packet.as_ptr(),
                packet.len(),
                ANSWER,
                ack.as_mut_ptr(),
                ack.len(),
                answer.as_mut_ptr(),
                answer.len(),
            )
        };
        digest.number(number);
        digest.row(&answer);
        if answer[0] == FINISHED {
            digest.bytes(part(buffer, answer[7], answer[4] as usize));
            digest.bytes(&ack);
        }
    }
    row.iter().for_each(|slot| digest.row(&lent_row(slot)));
    digest.bytes(buffer);
    digest.value()
}

/// Packets that stand joined, each read from where the one before it ends.
pub fn read<const WHOLE: bool>(read: PacketRead, joined: &[u8]) -> u64 {
    let read = black_box(read);
    let mut digest = Digest::<WHOLE>::new();
    let mut answer = [0; 10];
    let mut rest = joined;
    while !rest.is_empty() {
        let number = unsafe {
            read(
                rest.as_ptr(),
                rest.len(),
                LIMIT,
                answer.as_mut_ptr(),
                answer.len(),
            )
        };
        digest.number(number);
        digest.row(&answer);
        rest = &rest[answer[0] as usize..];
    }
    digest.value()
}

/// The packets of a capture, place after place.
pub fn captured<const WHOLE: bool>(read: CapturePacket, capture: &[u8]) -> u64 {
    let read = black_box(read);
    let mut digest = Digest::<WHOLE>::new();
    let mut answer = [0; 5];
    let mut place = 1;
    loop {
        let number = unsafe {
            read(
                capture.as_ptr(),
                capture.len(),
                place,
                answer.as_mut_ptr(),
                answer.len(),
            )
        };
        digest.number(number);
        digest.row(&answer);
        if answer[0] == 0 {
            return digest.value();
        }
        place = answer[3];
    }
}

/// A capture judged, in one call.
pub fn judge<const WHOLE: bool>(judge: CaptureJudge, capture: &[u8], room: usize) -> u64 {
    judged::<WHOLE, 2>(judge, capture, room)
}

/// .. and told why.
pub fn why<const WHOLE: bool>(why: CaptureJudge, capture: &[u8], room: usize) -> u64 {
    judged::<WHOLE, 31>(why, capture, room)
}

fn judged<const WHOLE: bool, const N: usize>(
    judge: CaptureJudge,
    capture: &[u8],
    room: usize,
) -> u64 {
    let judge = black_box(judge);
    let mut digest = Digest::<WHOLE>::new();
    let mut answer = [0; N];
    let number = unsafe {
        judge(
            capture.as_ptr(),
            capture.len(),
            room as u64,
            LIMIT,
            answer.as_mut_ptr(),
            answer.len(),
        )
    };
    digest.number(number);
    digest.row(&answer);
    digest.value()
}

/// A capture added to an empty report, in one call.
pub fn report<const WHOLE: bool>(add: ReportAdd, capture: &[u8], buffer: &mut [u8]) -> u64 {
    let add = black_box(add);
    let mut digest = Digest::<WHOLE>::new();
    let (mut report, mut row, mut answer) = ([0; 21], [IDLE; SLOTS], [0]);
    let number = unsafe {
        add(
            report.as_mut_ptr(),
            report.len(),
            LIMIT,
            row.as_mut_ptr(),
            row.len(),
            buffer.as_mut_ptr(),
            buffer.len(),
            capture.as_ptr(),
            capture.len(),
            answer.as_mut_ptr(),
            answer.len(),
        )
    };
    digest.number(number);
    digest.row(&answer);
    digest.row(&report);
    row.iter().for_each(|slot| digest.row(&lent_row(slot)));
    digest.bytes(buffer);
    digest.value()
}

/// A finished message, in the part of the slot at a place.
fn part(buffer: &[u8], place: u64, total: usize) -> &[u8] {
    &buffer[place as usize * LIMIT as usize..][..total]
}

const IDLE: pito_slot = pito_slot {
    opened: 0,
    id: 0,
    sequence: 0,
    wanted: 0,
    total: 0,
    held: 0,
};

fn lent_row(slot: &pito_slot) -> [u64; 6] {
    let (total, held) = (u64::from(slot.total), u64::from(slot.held));
    let [opened, id, sequence, wanted] =
        [slot.opened, slot.id, slot.sequence, slot.wanted].map(u64::from);
    [opened, id, total, held, sequence, wanted]
}
