//! Packets in interleaved lists: the three streams' messages mixed, up to five of a stream at a time, in
//! pieces of our writer and of other makers', with lost, doubled, damaged and foreign packets among them,
//! from idle, random lawful and unlawful rows of slots, on links with several limits. Each packet comes
//! with an answer sequence and an answer buffer of its own.

use super::streams::near;
use super::{damage, edge, Plan};
use crate::comparison::{Compared, Comparison};
use crate::implementation::{Call, Operation, Slot};
use crate::low_energy::{self, Stream, Wish, SLOTS};
use crate::rng::Rng;
use std::collections::VecDeque;

/// The limits that are tried: each with how many packets and how many unlawful rows it gets.
/// Every lent byte is compared at every call, so a large buffer is dear.
const LIMITS: &[(u64, [u64; 2])] = &[
    (64, [1_000_000, 30_000]),
    (4_096, [100_000, 3_000]),
    (1, [60_000, 3_000]),
    (2, [60_000, 3_000]),
    (19, [60_000, 3_000]),
    (20, [60_000, 3_000]),
    (255, [60_000, 3_000]),
    (256, [60_000, 3_000]),
    (20_000, [1_000, 60]),
    (65_535, [300, 20]),
];

pub fn run(c: &mut Comparison<'_>, rng: &mut Rng, plan: Plan) -> Compared<()> {
    for &(limit, [packets, rows]) in LIMITS {
        c.at = format!("a receiver opened with {limit}");
        let mut open = Call::new(Operation::ReceiverOpen).numbers(&[limit]);
        c.expect(&mut open, 0, |call| call.state == idle(limit))?;
        let lent = rng.bytes(low_energy::buffer(limit));
        let mut call = Call::new(Operation::ReceiverAccept)
            .state(&idle(limit))
            .lent(lent);
        let wanted = plan.times(packets);
        let mut given = 0;
        let mut lists = 0u64;
        while given < wanted {
            if lists.is_multiple_of(256) {
                c.at = format!("packet list {lists} at limit {limit}");
            }
            lists += 1;
            given += list(c, rng, &mut call, limit)?;
        }
        c.at = format!("unlawful rows of slots at limit {limit}");
        for _ in 0..plan.times(rows) {
            call.slots = unlawful(rng, limit);
            call.inputs[0] = directed(rng, limit, &call.slots);
            call.state[0] = if rng.once_in(12) { edge(rng) } else { limit };
            (call.numbers[0], call.reply) = answering(rng, 8);
            c.run(&mut call)?;
        }
    }
    Ok(())
}

/// An answer sequence and an answer buffer: about once in `wrong` one of the two is out of range or
/// too small, sometimes both.
pub(super) fn answering(rng: &mut Rng, wrong: u64) -> (u64, Vec<u8>) {
    let sequence = if rng.once_in(2 * wrong) {
        edge(rng)
    } else {
        rng.below(16)
    };
    let size = if rng.once_in(2 * wrong) {
        rng.index(6)
    } else {
        rng.between(6, 9)
    };
    (sequence, rng.bytes(size))
}

/// The state of a link with a limit, which it is alone.
pub(super) fn idle(limit: u64) -> Vec<u64> {
    vec![limit]
}

/// A slot that is open for this id and lawful; with a limit of 1 none is.
fn open_slot(rng: &mut Rng, limit: u64, id: u8) -> Slot {
    let most = limit as usize;
    let total = match rng.below(4) {
        0 => rng.between(2, most.min(5)),
        1 => rng.between(2, most.min(600)),
        2 => near(rng, limit, 6, 0).max(2),
        _ => rng.between(2, most),
    };
    let held = match rng.below(4) {
        0 => 1,
        1 => total - 1,
        2 => total - rng.between(1, (total - 1).min(300)),
        _ => rng.between(1, total - 1),
    };
    Slot {
        opened: 1,
        id,
        sequence: rng.below(16) as u8,
        wanted: rng.below(2) as u8,
        total: total as u16,
        held: held as u16,
    }
}

/// A lawful row: each slot idle or open, of a stream often all four, no two of them with one id.
pub(super) fn lawful(rng: &mut Rng, limit: u64) -> Vec<Slot> {
    let mut row = vec![Slot::default(); SLOTS];
    for stream in Stream::ALL {
        // Steps of an odd number come to all sixteen ids.
        let (first, step) = (rng.below(16), 2 * rng.below(8) + 1);
        let full = rng.once_in(3);
        for place in stream.places() {
            if limit > 1 && (full || rng.once_in(2)) {
                let id = (first + place as u64 * step) % 16;
                row[place] = open_slot(rng, limit, id as u8);
            }
        }
    }
    row
}

/// A row with a number or two that it may not have (or by chance may), or of another length.
pub(super) fn unlawful(rng: &mut Rng, limit: u64) -> Vec<Slot> {
    let mut row = lawful(rng, limit);
    for _ in 0..rng.between(1, 2) {
        let place = rng.index(SLOTS);
        let any = edge(rng);
        match rng.below(10) {
            // An id doubled: in one stream, or in two, which is lawful.
            0 | 1 => row[place].id = row[rng.index(SLOTS)].id,
            2 => row[place].id = any as u8,
            3 => row[place].sequence = any as u8,
            4 => row[place].opened = rng.below(3) as u8,
            5 => row[place].wanted = rng.below(3) as u8,
            // Held at or past its total, total at or under what is held.
            6 => row[place].held = row[place].total.wrapping_sub(rng.below(3) as u16),
            7 => row[place].total = row[place].held.wrapping_add(rng.below(3) as u16),
            8 => row[place].total = near(rng, limit, 1, 2).min(65_535) as u16,
            _ => row[place].held = any as u16,
        }
    }
    if rng.once_in(10) {
        let length = rng.index(SLOTS + 4);
        row.resize(length, Slot::default());
    }
    row
}

/// A packet with these fields, whatever they are; the length field is right for the piece.
fn raw(
    head: u8,
    sequence: u8,
    kind: u8,
    flag: bool,
    extended: bool,
    total: usize,
    piece: &[u8],
) -> Vec<u8> {
    let mut packet = vec![
        head,
        sequence << 4 | kind << 2 | u8::from(flag) << 1 | u8::from(extended),
    ];
    if kind == 0 {
        packet.extend([0, (total >> 8) as u8, total as u8]);
    }
    if extended {
        packet.push((piece.len() >> 8) as u8);
    }
    packet.push(piece.len() as u8);
    packet.extend_from_slice(piece);
    packet
}

/// A message cut in pieces of any size by somebody else, with the extender at will.
fn foreign(rng: &mut Rng, wish: Wish, message: &[u8]) -> Vec<Vec<u8>> {
    let mut packets = Vec::new();
    let mut place = 0;
    let mut sequence = wish.sequence;
    loop {
        let rest = message.len() - place;
        let most = if rng.once_in(6) { 600 } else { 40 };
        let size = match rng.below(3) {
            0 => rest.min(most),
            _ if rest == 0 => 0,
            _ => rng.between(1, rest.min(most)),
        };
        let last = size == rest;
        let kind = match (place, last) {
            (0, _) => 0,
            (_, false) => 1,
            (_, true) => 2,
        };
        let extended = size > 255 || rng.once_in(4);
        // The flag on any packet asks.
        let flag = if last { wish.ack } else { rng.once_in(4) };
        packets.push(raw(
            wish.stream.number() << 4 | wish.id,
            sequence,
            kind,
            flag,
            extended,
            message.len(),
            &message[place..place + size],
        ));
        if last {
            return packets;
        }
        place += size;
        sequence = (sequence + 1) % 16;
    }
}

pub(super) fn any_byte(rng: &mut Rng) -> u8 {
    match rng.below(3) {
        0 => rng.byte(),
        1 => *rng.pick(&[0x00, 0x01, 0x02, 0x03, 0x0E, 0x0C, 0xFF, 0x10]),
        _ => *rng.pick(&[0x00, 0x20, 0x60]) | rng.below(16) as u8,
    }
}

/// An ACK or NACK, or something like one.
pub(super) fn acknowledgement(rng: &mut Rng) -> Vec<u8> {
    let stream = *rng.pick(&Stream::ALL);
    let (id, sequence) = (rng.below(16) as u8, rng.below(16) as u8);
    let made = low_energy::acknowledgement(stream, id, sequence, rng.once_in(2));
    let mut packet = made.to_vec();
    if rng.once_in(3) {
        damage(rng, &mut packet, any_byte);
    }
    packet
}

/// A packet made for a slot of the row at hand: each field is the right one mostly, and one off or any
/// otherwise.
pub(super) fn directed(rng: &mut Rng, limit: u64, slots: &[Slot]) -> Vec<u8> {
    let stream = *rng.pick(&Stream::ALL);
    // As long as a message may be, and a little longer; no longer than its total can say.
    let limit = limit as usize;
    let longest = (limit + 104).min(65_535);
    let place = stream.places().start + rng.index(4);
    let slot = slots.get(place).copied().unwrap_or_default();
    let kind = *rng.pick(&[0, 0, 1, 1, 2, 2, 2, 3]);
    let mut head = stream.number() << 4;
    // A first packet is as often for an id that is not open.
    head |= if slot.opened == 1 && !rng.once_in(if kind == 0 { 2 } else { 10 }) {
        slot.id & 15
    } else {
        rng.below(16) as u8
    };
    if rng.once_in(30) {
        head = rng.byte();
    }
    let next = if rng.once_in(10) {
        rng.below(16) as u8
    } else {
        slot.sequence.wrapping_add(1) % 16
    };
    let left = longest.min(slot.total.saturating_sub(slot.held).into());
    let aim = match kind {
        0 if rng.once_in(20) => *rng.pick(&[
            limit.saturating_sub(6),
            limit,
            limit + 1,
            limit + 2,
            longest,
        ]),
        0 => rng.index(20),
        1 if rng.once_in(5) => left,
        1 => rng
            .index(left.max(1))
            .min(if rng.once_in(8) { limit } else { 60 }),
        _ => left,
    };
    let size = match rng.below(12) {
        0 => aim + 1,
        1 => aim.saturating_sub(1),
        _ => aim,
    }
    .min(65_535);
    let total = match rng.below(8) {
        0 => size,
        1 => size.saturating_sub(1),
        2 => rng.between(limit.saturating_sub(1), limit + 2),
        3 => 0,
        4 => rng.index(65_536),
        _ => size + rng.index(60),
    };
    let extended = size > 255 || rng.once_in(5);
    let piece = rng.bytes(size);
    let flag = rng.once_in(2);
    let mut packet = raw(head, next, kind, flag, extended, total, &piece);
    match rng.below(24) {
        0 => damage(rng, &mut packet, any_byte),
        1 => packet.truncate(rng.index(9)),
        2 if kind == 0 => packet[2] = any_byte(rng),
        3 => packet.push(rng.byte()),
        4 => {
            packet.pop();
        }
        _ => {}
    }
    packet
}

/// The packets of one message on this stream, with an id below `ids`.
pub(super) fn message_packets(
    rng: &mut Rng,
    stream: Stream,
    ids: u64,
    limit: u64,
) -> VecDeque<Vec<u8>> {
    let size = match rng.below(20) {
        0 => 0,
        1 => near(rng, limit, 96, 0),
        2 => rng.between(200, 900),
        _ => rng.index(90),
    }
    // At a small limit some are longer.
    .min(near(rng, limit, 0, 2))
    .min(65_535);
    let wish = Wish {
        stream,
        id: rng.below(ids) as u8,
        sequence: rng.below(16) as u8,
        ack: rng.once_in(2),
    };
    let message = rng.bytes(size);
    if rng.once_in(2) {
        let room = if size > 900 {
            rng.between(100, 512)
        } else {
            rng.between(20, 60)
        };
        low_energy::pieces(size, room)
            .map(|piece| low_energy::packet(wish, &message, piece))
            .collect()
    } else {
        foreign(rng, wish, &message).into()
    }
}

/// Where the packets of a list come from: up to five messages of a stream at a time, in queues, with packets lost, doubled,
/// damaged and out of order, ACKs, and packets made for a slot.
pub(super) struct Source {
    limit: u64,
    damaging: u64,
    directing: u64,
    /// As many messages of a stream at a time, of as many ids.
    most: usize,
    ids: u64,
    queues: Vec<VecDeque<Vec<u8>>>,
}

impl Source {
    pub(super) fn new(rng: &mut Rng, limit: u64) -> Source {
        let damaging = *rng.pick(&[0, 0, 20, 8, 4]);
        let directing = *rng.pick(&[0, 0, 8, 2, 1]);
        let most = rng.between(1, 5);
        let ids = *rng.pick(&[16, 6, 4]);
        Source {
            limit,
            damaging,
            directing,
            most,
            ids,
            queues: vec![VecDeque::new(); 3 * most],
        }
    }

    /// The next packet, for a receiver with these slots.
    pub(super) fn next(&mut self, rng: &mut Rng, slots: &[Slot]) -> Vec<u8> {
        if self.directing > 0 && rng.once_in(self.directing) {
            return directed(rng, self.limit, slots);
        }
        if rng.once_in(12) {
            return acknowledgement(rng);
        }
        let stream = *rng.pick(&Stream::ALL);
        let queue = &mut self.queues[stream as usize * self.most + rng.index(self.most)];
        if queue.is_empty() || rng.once_in(60) {
            *queue = message_packets(rng, stream, self.ids, self.limit);
        }
        let mut packet = queue.pop_front().expect("a message has a packet");
        if self.damaging > 0 && rng.once_in(self.damaging) {
            match rng.below(4) {
                // Lost: the next one comes instead, if there is one.
                0 => packet = queue.pop_front().unwrap_or(packet),
                // Doubled.
                1 => queue.push_front(packet.clone()),
                // Out of order.
                2 => {
                    if let Some(next) = queue.pop_front() {
                        queue.push_front(packet);
                        packet = next;
                    }
                }
                _ => damage(rng, &mut packet, any_byte),
            }
        }
        packet
    }
}

/// One list; gives the number of packets.
fn list(c: &mut Comparison<'_>, rng: &mut Rng, call: &mut Call, limit: u64) -> Compared<u64> {
    call.state = idle(limit);
    call.slots = if rng.once_in(3) {
        lawful(rng, limit)
    } else {
        vec![Slot::default(); SLOTS]
    };
    let mut source = Source::new(rng, limit);
    let length = rng.between(20, 70) as u64;
    for _ in 0..length {
        call.inputs[0] = source.next(rng, &call.slots);
        (call.numbers[0], call.reply) = answering(rng, 60);
        c.run(call)?;
    }
    Ok(length)
}
