//! "The packet of Low Energy (000)": packets read and written, ACK and NACK, and the receiver, on a
//! link with any limit (No. 6).

use crate::refusal::{deliver, limit_in, Refusal};
use std::ops::Range;

/// "Each stream gets four slots" (No. 11).
const EACH: usize = 4;

/// The slots of a row.
pub const SLOTS: usize = 3 * EACH;

/// What the lent buffer has exactly: "the buffer is twelve times the limit".
pub const fn buffer(limit: u64) -> usize {
    12 * limit as usize
}

/// "stream in the upper four bits (0 control, 6 Alexa, 2 OTA)". The order is that of the row and of the
/// lent buffer, "with its parts in the row's order: control, OTA, Alexa".
#[derive(Clone, Copy, Debug, PartialEq, Eq)]
pub enum Stream {
    Control,
    Ota,
    Alexa,
}

impl Stream {
    pub const ALL: [Stream; 3] = [Stream::Control, Stream::Ota, Stream::Alexa];

    /// The number on the wire.
    pub fn number(self) -> u8 {
        match self {
            Stream::Control => 0,
            Stream::Ota => 2,
            Stream::Alexa => 6,
        }
    }

    /// The stream of a number, if it is 0, 2 or 6.
    pub fn of(number: u64) -> Option<Stream> {
        Stream::ALL
            .into_iter()
            .find(|stream| u64::from(stream.number()) == number)
    }

    /// The places in the row of this stream's slots; slot k has part k of the buffer.
    pub fn places(self) -> Range<usize> {
        let first = EACH * self as usize;
        first..first + EACH
    }
}

/// A packet that is right in itself; whether the receiver takes it depends on the slot.
#[derive(Clone, Copy, Debug, PartialEq, Eq)]
pub struct Packet<'a> {
    pub stream: Stream,
    pub id: u8,
    pub sequence: u8,
    pub flag: bool,
    pub part: Part<'a>,
}

/// "Types: 0 first or only, 1 continuation, 2 last, 3 control."
#[derive(Clone, Copy, Debug, PartialEq, Eq)]
pub enum Part<'a> {
    First {
        total: usize,
        piece: &'a [u8],
    },
    Continuation {
        piece: &'a [u8],
    },
    Last {
        piece: &'a [u8],
    },
    /// An ACK, or a NACK; the flag says which.
    Acknowledgement,
}

/// What stands between byte 1 and the payload on types 0 to 2.
struct Fields {
    reserved: u8,
    total: usize,
    length: usize,
}

impl Fields {
    /// "A type 0 packet then has a zero byte and a two-byte total. Then the payload length, one
    /// byte, or two if the extender is 1". Nothing if the bytes end before the header does.
    fn read(bytes: &mut std::slice::Iter<'_, u8>, first: bool, extended: bool) -> Option<Fields> {
        let mut number = |count: usize| {
            (0..count).try_fold(0usize, |sum, _| {
                bytes.next().map(|&byte| sum << 8 | usize::from(byte))
            })
        };
        let (reserved, total) = if first {
            (number(1)? as u8, number(2)?)
        } else {
            (0, 0)
        };
        let length = number(if extended { 2 } else { 1 })?;
        Some(Fields {
            reserved,
            total,
            length,
        })
    }
}

impl<'a> Packet<'a> {
    /// Reads one packet of a link with a limit; the refusals are 2, 3, 12, 4, 5, 6, 7, 8 in the
    /// table's order.
    pub fn read(limit: u64, packet: &'a [u8]) -> Result<Packet<'a>, Refusal> {
        let mut bytes = packet.iter();
        let (Some(&zeroth), Some(&first)) = (bytes.next(), bytes.next()) else {
            return Err(Refusal::ShortPacket);
        };
        // "Byte 1, from the top: sequence 4 bits, type 2, ACK flag 1, extender 1."
        let kind = first >> 2 & 3;
        let flag = first & 2 != 0;
        let extended = first & 1 != 0;
        let fields = match kind {
            3 => None,
            _ => Some(Fields::read(&mut bytes, kind == 0, extended).ok_or(Refusal::ShortPacket)?),
        };
        let stream = Stream::of(u64::from(zeroth >> 4)).ok_or(Refusal::Stream)?;
        let whole = |part| Packet {
            stream,
            id: zeroth & 15,
            sequence: first >> 4,
            flag,
            part,
        };
        let Some(fields) = fields else {
            // "Six bytes: stream and id of the request; any sequence, type 3, flag, extender 0;
            // then 00 02 01 and a code. Flag 1 goes with code 00, flag 0 with 03."
            let code = if flag { 0x00 } else { 0x03 };
            return if !extended && bytes.eq(&[0x00, 0x02, 0x01, code]) {
                Ok(whole(Part::Acknowledgement))
            } else {
                Err(Refusal::NoAcknowledgement)
            };
        };
        let piece = bytes.as_slice();
        if fields.reserved != 0 {
            return Err(Refusal::Reserved);
        }
        if piece.len() != fields.length {
            return Err(Refusal::PacketLength);
        }
        if fields.total as u64 > limit {
            return Err(Refusal::Total);
        }
        if piece.is_empty() && !(kind == 0 && fields.total == 0) {
            return Err(Refusal::EmptyPayload);
        }
        if kind == 0 && piece.len() > fields.total {
            return Err(Refusal::AboveTotal);
        }
        Ok(whole(match kind {
            0 => Part::First {
                total: fields.total,
                piece,
            },
            1 => Part::Continuation { piece },
            _ => Part::Last { piece },
        }))
    }
}

/// How many bytes the packet at the front of some bytes has, by its own header; nothing if the bytes end before it does.
fn length_of(bytes: &[u8]) -> Option<usize> {
    let mut left = bytes.iter();
    let (_, first) = (left.next()?, left.next()?);
    let kind = first >> 2 & 3;
    if kind == 3 {
        // "Six bytes".
        return Some(6);
    }
    let fields = Fields::read(&mut left, kind == 0, first & 1 != 0)?;
    Some(bytes.len() - left.len() + fields.length)
}

/// The packet at the front of some bytes, and what it says; bytes that end before it does are refused as a packet is.
pub fn front(limit: u64, bytes: &[u8]) -> Result<(&[u8], Packet<'_>), Refusal> {
    let whole = length_of(bytes)
        .and_then(|length| bytes.get(..length))
        .unwrap_or(bytes);
    Ok((whole, Packet::read(limit, whole)?))
}

/// An open transaction: "id, total, count held and last sequence", and, by request No. 2, whether an
/// ACK is wanted: "An open slot remembers it".
#[derive(Clone, Copy, Debug, PartialEq, Eq)]
pub struct Open {
    pub id: u8,
    pub total: usize,
    pub held: usize,
    pub sequence: u8,
    pub wanted: bool,
}

impl Open {
    /// "A lawful state has id and sequence up to 15, total 1 to" the limit "and 1 <= held < total in
    /// each open slot."
    pub fn is_lawful(&self, limit: u64) -> bool {
        self.id <= 15
            && self.sequence <= 15
            && (1..=limit).contains(&(self.total as u64))
            && (1..self.total).contains(&self.held)
    }
}

/// The lent row: each slot idle or open, four for each stream. An idle slot has nothing to remember:
/// "a lawful idle slot remembers none".
pub type Slots = [Option<Open>; SLOTS];

/// A row in which every slot is idle.
pub const IDLE: Slots = [None; SLOTS];

/// The place of the slot that is open for this id in the stream, if one is.
fn open_place(slots: &Slots, stream: Stream, id: u8) -> Option<usize> {
    let is_it = |open: Open| open.id == id;
    stream
        .places()
        .find(|&place| slots[place].is_some_and(is_it))
}

/// The receiver of a link: its limit, which stays, and the row lent to it.
#[derive(Clone, Copy, Debug, PartialEq, Eq)]
pub struct Receiver {
    pub limit: u64,
    pub slots: Slots,
}

impl Receiver {
    /// The empty state of a link with a limit: every slot idle.
    pub fn open(limit: u64) -> Result<Receiver, Refusal> {
        limit_in(limit)?;
        Ok(Receiver { limit, slots: IDLE })
    }

    /// "a state whose limit is out of range is unlawful"; "no two open slots of a stream have one id".
    pub fn is_lawful(&self) -> bool {
        let lawful = |open: &Open| open.is_lawful(self.limit);
        limit_in(self.limit).is_ok()
            && self.slots.iter().flatten().all(lawful)
            && Stream::ALL
                .into_iter()
                .all(|stream| self.ids_differ(stream))
    }

    fn ids_differ(&self, stream: Stream) -> bool {
        let ids = || {
            self.slots[stream.places()]
                .iter()
                .flatten()
                .map(|open| open.id)
        };
        ids().all(|id| ids().filter(|&other| other == id).count() == 1)
    }
}

/// What an accepted packet came to.
#[derive(Clone, Copy, Debug, PartialEq, Eq)]
pub enum Accepted {
    /// The piece is held in the slot at this place; more has to come.
    Held {
        place: usize,
        stream: Stream,
        id: u8,
        replaced: bool,
    },
    /// The transaction is whole: its slot's part of the buffer begins with it.
    Finished {
        place: usize,
        stream: Stream,
        id: u8,
        total: usize,
        ack_wanted: bool,
        replaced: bool,
    },
    /// Of the request with this stream and id; "any sequence" is the packet's own.
    Acknowledgement {
        stream: Stream,
        id: u8,
        sequence: u8,
        positive: bool,
    },
}

/// What is lent for the ACK (No. 9): "a second lent buffer, with a sequence the caller gives".
pub struct Reply<'a> {
    pub sequence: u64,
    pub buffer: &'a mut [u8],
}

/// One packet given to the receiver: "a packet that finishes a transaction wanting one also writes
/// six bytes to a second lent buffer, with a sequence the caller gives; every other outcome leaves
/// that buffer untouched". "after 1, 15 for an answer sequence above 15 and 14 for an answer buffer
/// under six bytes, both before the packet is looked at".
pub fn accept(
    state: Receiver,
    lent: &mut [u8],
    packet: &[u8],
    reply: Reply,
) -> (Receiver, Result<Accepted, Refusal>) {
    if !state.is_lawful() || lent.len() != buffer(state.limit) {
        return (state, Err(Refusal::Lent));
    }
    if reply.sequence > 15 {
        return (state, Err(Refusal::Argument));
    }
    let Some(room) = reply.buffer.first_chunk_mut() else {
        return (state, Err(Refusal::Output));
    };
    let (after, told) = take(state, lent, packet);
    if let Ok(Accepted::Finished {
        stream,
        id,
        ack_wanted: true,
        ..
    }) = told
    {
        *room = acknowledgement(stream, id, reply.sequence as u8, true);
    }
    (after, told)
}

/// One packet, taken into a lawful state and a buffer of the right size.
fn take(state: Receiver, lent: &mut [u8], packet: &[u8]) -> (Receiver, Result<Accepted, Refusal>) {
    let Receiver { limit, slots } = state;
    let packet = match Packet::read(limit, packet) {
        Ok(packet) => packet,
        Err(refusal) => return (state, Err(refusal)),
    };
    let (stream, id) = (packet.stream, packet.id);
    let open = open_place(&slots, stream, id);
    let goes = match packet.part {
        // "ACK packets never touch a slot."
        Part::Acknowledgement => {
            let told = Accepted::Acknowledgement {
                stream,
                id,
                sequence: packet.sequence,
                positive: packet.flag,
            };
            return (state, Ok(told));
        }
        // "A first packet whose id is open in its stream replaces that transaction; otherwise it takes
        // the lowest idle slot".
        Part::First { .. } => open
            .or_else(|| stream.places().find(|&place| slots[place].is_none()))
            .ok_or(Refusal::NoSlot),
        Part::Continuation { .. } | Part::Last { .. } => open.ok_or(Refusal::NotOpen),
    };
    let place = match goes {
        Ok(place) => place,
        Err(refusal) => return (state, Err(refusal)),
    };
    let set = |slot: Option<Open>| {
        let mut after = state;
        after.slots[place] = slot;
        after
    };
    let (after, piece) = match added(slots[place], packet) {
        Ok(added) => added,
        // 10 and 11 leave "slot idle, bytes kept".
        Err(refusal) => return (set(None), Err(refusal)),
    };
    // "An accepted piece is written in its" part "at the count held, and no other byte changes."
    lent.chunks_exact_mut(limit as usize)
        .nth(place)
        .expect("a part for each slot")[after.held - piece.len()..after.held]
        .copy_from_slice(piece);
    let replaced = matches!(packet.part, Part::First { .. }) && open.is_some();
    if after.held == after.total {
        // "Finishing makes the slot idle".
        let told = Accepted::Finished {
            place,
            stream,
            id,
            total: after.total,
            ack_wanted: after.wanted,
            replaced,
        };
        (set(None), Ok(told))
    } else {
        let told = Accepted::Held {
            place,
            stream,
            id,
            replaced,
        };
        (set(Some(after)), Ok(told))
    }
}

/// The transaction with one packet more, and the packet's piece, of the slot that it goes to; 10 and 11.
fn added<'a>(slot: Option<Open>, packet: Packet<'a>) -> Result<(Open, &'a [u8]), Refusal> {
    let (last, piece) = match packet.part {
        Part::First { total, piece } => {
            let begun = Open {
                id: packet.id,
                total,
                held: piece.len(),
                sequence: packet.sequence,
                wanted: packet.flag,
            };
            return Ok((begun, piece));
        }
        Part::Continuation { piece } => (false, piece),
        Part::Last { piece } => (true, piece),
        Part::Acknowledgement => panic!("it has no piece"),
    };
    let open = slot.expect("9 is judged before");
    // "Here 0 follows 15. Within a transaction each packet's sequence is one more, modulo 16".
    if packet.sequence != (open.sequence + 1) % 16 {
        return Err(Refusal::OutOfOrder);
    }
    let held = open.held + piece.len();
    if held > open.total || last != (held == open.total) {
        return Err(Refusal::MissesTotal);
    }
    let after = Open {
        held,
        sequence: packet.sequence,
        // "An ACK is wanted if at least one accepted packet of the transaction carried the flag."
        wanted: open.wanted || packet.flag,
        ..open
    };
    Ok((after, piece))
}

/// One piece of a message: the bytes from `place` on, `size` of them, in the packet `index`.
#[derive(Clone, Copy, Debug, PartialEq, Eq)]
pub struct Piece {
    pub index: usize,
    pub place: usize,
    pub size: usize,
    pub last: bool,
}

/// "So headers are 6 or 7 bytes on type 0 and 3 or 4 on types 1 and 2." "Our writer uses it only
/// above 255."
fn header_size(first: bool, size: usize) -> usize {
    (if first { 6 } else { 3 }) + usize::from(size > 255)
}

/// The pieces of a message of `length` bytes at a room, in order. "Each piece is the largest that
/// is no more than the rest and fits its header in the room."
pub fn pieces(length: usize, room: usize) -> impl Iterator<Item = Piece> {
    let piece = move |index: usize, place: usize| {
        let rest = length - place;
        let size = (0..=rest.min(room))
            .rev()
            .find(|&size| header_size(place == 0, size) + size <= room)
            .expect("every room from 20 on fits a header");
        Piece {
            index,
            place,
            size,
            last: size == rest,
        }
    };
    std::iter::successors(Some(piece(0, 0)), move |before| {
        (!before.last).then(|| piece(before.index + 1, before.place + before.size))
    })
}

/// What all packets of one message share.
#[derive(Clone, Copy, Debug, PartialEq, Eq)]
pub struct Wish {
    pub stream: Stream,
    pub id: u8,
    /// The first packet's sequence; "each packet's sequence is one more, modulo 16".
    pub sequence: u8,
    pub ack: bool,
}

/// One packet of a message, as bytes.
pub fn packet(wish: Wish, message: &[u8], piece: Piece) -> Vec<u8> {
    let first = piece.place == 0;
    let kind = match (first, piece.last) {
        (true, _) => 0,
        (false, false) => 1,
        (false, true) => 2,
    };
    let sequence = (usize::from(wish.sequence) + piece.index) % 16;
    // "The ACK flag, if wanted, stands on the last packet only."
    let flag = u8::from(wish.ack && piece.last);
    let extended = piece.size > 255;
    let mut made = vec![
        wish.stream.number() << 4 | wish.id,
        (sequence as u8) << 4 | kind << 2 | flag << 1 | u8::from(extended),
    ];
    if first {
        made.push(0);
        made.extend((message.len() as u16).to_be_bytes());
    }
    let length = (piece.size as u16).to_be_bytes();
    made.extend(&length[usize::from(!extended)..]);
    made.extend(&message[piece.place..piece.place + piece.size]);
    made
}

/// The room of a packet: 20 to 512 bytes, or 13.
pub(crate) fn room_in(room: u64) -> Result<usize, Refusal> {
    if !(20..=512).contains(&room) {
        return Err(Refusal::Room);
    }
    Ok(room as usize)
}

/// The message packet writer of a link with a limit: 13, 17, 15, 14. "One packet is written at a time; a place in the message
/// where no piece begins is 15." Gives the bytes written and the place after the piece.
pub fn write_packet(
    room: u64,
    limit: u64,
    wish: Option<Wish>,
    message: &[u8],
    place: u64,
    output: &mut [u8],
) -> Result<(usize, usize), Refusal> {
    let room = room_in(room)?;
    let limit = limit_in(limit)?;
    let wish = wish.ok_or(Refusal::Argument)?;
    if message.len() > limit {
        return Err(Refusal::Argument);
    }
    let piece = pieces(message.len(), room)
        .find(|piece| piece.place as u64 == place)
        .ok_or(Refusal::Argument)?;
    // 14 is an "output smaller than what is written; for message packets, than the room".
    if output.len() < room {
        return Err(Refusal::Output);
    }
    let written = deliver(&packet(wish, message, piece), output)?;
    Ok((written, piece.place + piece.size))
}

/// The six bytes of an ACK or a NACK.
pub fn acknowledgement(stream: Stream, id: u8, sequence: u8, positive: bool) -> [u8; 6] {
    let (flag, code) = if positive { (2, 0x00) } else { (0, 0x03) };
    [
        stream.number() << 4 | id,
        sequence << 4 | 3 << 2 | flag,
        0x00,
        0x02,
        0x01,
        code,
    ]
}
