//! Replies to finished control transactions: any message, what is carried and what is not at and past its ranges, every
//! command near those with an answer, at all rooms. Cut apart by their own headers, the packets are those that the packet
//! writer writes of the reply, and a receiver of the limit gives that reply.

use super::control::{message, value, varint_wrong};
use super::{edge, packets, text, Plan};
use crate::comparison::{Compared, Comparison};
use crate::implementation::{Call, Operation};
use crate::low_energy;
use crate::rng::Rng;

/// Places in the numbers of a call.
const MEMBERS: [usize; 2] = [2, 3];
const ROOM: usize = 4;
const LIMIT: usize = 5;
const ID: usize = 6;
const SEQUENCE: usize = 7;
const TRANSPORTS: usize = 8;

pub fn run(c: &mut Comparison<'_>, rng: &mut Rng, plan: Plan) -> Compared<()> {
    c.at = "replies to each command".to_string();
    for command in (0..130).chain([0xFFFF_FFFF, 0x1_0000_0014, u64::MAX, 0x8000_0000]) {
        let mut call = asking(rng, command);
        answered(c, rng, &mut call)?;
    }
    c.at = "replies at all rooms".to_string();
    for room in 20..=512 {
        let mut call = asking(rng, 20);
        call.numbers[ROOM] = room;
        for string in 1..4 {
            let size = rng.index(400);
            call.inputs[string] = rng.bytes(size).iter().map(|byte| byte & 0x7F).collect();
        }
        answered(c, rng, &mut call)?;
    }
    c.at = "replies at the limit".to_string();
    for size in [1, 2, 130, 4_096, 65_535] {
        at_the_limit(c, rng, size)?;
    }
    c.at = "replies to any message".to_string();
    for _ in 0..plan.times(200_000) {
        let mut call = any(rng);
        answered(c, rng, &mut call)?;
    }
    Ok(())
}

/// A message with a command and nothing else.
fn question(rng: &mut Rng, command: u64) -> Vec<u8> {
    let mut made = vec![0x08];
    varint_wrong(rng, 0, command, &mut made);
    made
}

/// A call with nothing out of its range, to a message that asks a command.
fn asking(rng: &mut Rng, command: u64) -> Call {
    let message = question(rng, command);
    plain(rng, message)
}

/// A call with nothing out of its range and an output that is large enough.
fn plain(rng: &mut Rng, message: Vec<u8>) -> Call {
    let mut numbers = vec![value(rng), value(rng), 3, 28];
    numbers.extend([rng.between(20, 512) as u64, 4_096]);
    numbers.extend([rng.below(16), rng.below(16)]);
    numbers.extend((0..rng.below(9)).map(|_| rng.below(2)));
    Call::new(Operation::ReplyWrite)
        .numbers(&numbers)
        .inputs(&[&message, b"serial", b"Name", b"type"])
        .lent(vec![0xCC; 1_600])
}

/// A reply as long as its limit, and one byte longer: 15, before a string that is bad.
fn at_the_limit(c: &mut Comparison<'_>, rng: &mut Rng, size: usize) -> Compared<()> {
    let mut call = asking(rng, 20);
    call.inputs[2] = vec![b'n'; size];
    call.numbers[LIMIT] = 65_535;
    call.lent = vec![0xCC; 90_000];
    let whole = match c.run(&mut call)? {
        0 => reply_of(&call.lent[..call.answer[0] as usize]).len() as u64,
        // The name alone is as long as the largest limit.
        _ => 65_536,
    };
    for (limit, bad) in [
        (whole, false),
        (whole - 1, false),
        (whole, true),
        (whole - 1, true),
    ] {
        call.numbers[LIMIT] = limit;
        call.inputs[2][0] = if bad { 0xFF } else { b'n' };
        let expected = match (limit, bad) {
            (65_536, _) => 17,
            _ if limit < whole => 15,
            (_, true) => 36,
            _ => 0,
        };
        c.expect(&mut call, expected, |call| {
            call.answer[1..] == if expected == 36 { [2, 0] } else { [0, 0] }
        })?;
    }
    Ok(())
}

/// A call of any kind: mostly a question of the handshake, with a few things at or past their ranges.
fn any(rng: &mut Rng) -> Call {
    let asked = match rng.below(8) {
        0 | 1 => message(rng),
        2 => {
            let command = value(rng);
            question(rng, command)
        }
        3 => [question(rng, 20), message(rng)].concat(),
        _ => {
            let command = *rng.pick(&[20, 20, 20, 28, 28, 94, 95]);
            question(rng, command)
        }
    };
    let mut call = plain(rng, asked);
    for string in 1..4 {
        let size = match rng.below(40) {
            0 => rng.between(400, 5_000),
            1..=9 => rng.between(120, 135),
            10..=14 => 0,
            _ => rng.index(20),
        };
        call.inputs[string] = text(rng, size);
    }
    for _ in 0..rng.index(3) {
        match rng.below(6) {
            0 => call.numbers[*rng.pick(&MEMBERS)] = edge(rng),
            1 => call.numbers[ROOM] = *rng.pick(&[0, 19, 20, 512, 513, u64::MAX]),
            2 => call.numbers[LIMIT] = edge(rng),
            3 => call.numbers[ID] = edge(rng),
            4 => call.numbers[SEQUENCE] = edge(rng),
            _ => {
                let count = rng.index(11);
                call.numbers.resize(TRANSPORTS + count, 1);
                if let Some(last) = call.numbers[TRANSPORTS..].last_mut() {
                    *last = edge(rng);
                }
            }
        }
    }
    let size = match rng.below(4) {
        0 => rng.index(120),
        _ => call.inputs.iter().map(Vec::len).sum::<usize>() * 2 + 200,
    };
    call.lent.resize(size, 0xCC);
    call
}

/// Runs a call, and where it has a reply holds that to the packet writer and to a receiver; then an output of just this
/// size, and one byte less.
fn answered(c: &mut Comparison<'_>, rng: &mut Rng, call: &mut Call) -> Compared<()> {
    let before = call.clone();
    if c.run(call)? != 0 || call.answer[0] == 0 {
        let kept = call.lent == before.lent;
        return c.hold(kept, "nothing is written without a reply", call);
    }
    let joined = call.lent[..call.answer[0] as usize].to_vec();
    let kept = call.lent[joined.len()..] == before.lent[joined.len()..];
    c.hold(kept, "nothing is written behind the reply", call)?;
    arrives(c, rng, call, &joined)?;
    for (size, expected) in [(joined.len(), 0), (joined.len() - 1, 14)] {
        let mut call = before.clone();
        call.lent.truncate(size);
        c.expect(&mut call, expected, |call| {
            expected == 0 || call.lent == before.lent[..size]
        })?;
    }
    Ok(())
}

/// The packets of joined bytes, each as long as its own header says.
fn cut(mut joined: &[u8]) -> Vec<&[u8]> {
    let mut packets = Vec::new();
    while !joined.is_empty() {
        let place = if joined[1] >> 2 & 3 == 0 { 5 } else { 2 };
        let (header, length) = match joined[1] & 1 {
            0 => (place + 1, usize::from(joined[place])),
            _ => {
                let length = u16::from_be_bytes([joined[place], joined[place + 1]]);
                (place + 2, usize::from(length))
            }
        };
        let (packet, rest) = joined.split_at(header + length);
        packets.push(packet);
        joined = rest;
    }
    packets
}

/// What the packets carry.
fn reply_of(joined: &[u8]) -> Vec<u8> {
    let payload = |packet: &[u8]| {
        let first = packet[1] >> 2 & 3 == 0;
        let header = if first { 6 } else { 3 } + usize::from(packet[1] & 1);
        packet[header..].to_vec()
    };
    cut(joined).into_iter().flat_map(payload).collect()
}

/// The packets are those of the packet writer on the control stream, no ACK wanted; a receiver of the limit takes each, writes
/// no ACK, and the last gives the reply.
fn arrives(c: &mut Comparison<'_>, rng: &mut Rng, asked: &Call, joined: &[u8]) -> Compared<()> {
    let reply = reply_of(joined);
    let [room, limit, id, sequence] = [ROOM, LIMIT, ID, SEQUENCE].map(|place| asked.numbers[place]);
    let mut writer = Call::new(Operation::PacketWrite).inputs(&[&reply]);
    // A receiver's buffer of a large limit is long to compare.
    let receives = limit <= 4_096 || rng.once_in(50);
    let mut receiver = Call::new(Operation::ReceiverAccept)
        .numbers(&[15])
        .state(&packets::idle(limit))
        .reply(vec![0xCC; 6]);
    if receives {
        receiver.lent = vec![0xCC; low_energy::buffer(limit)];
    }
    let packets = cut(joined);
    let mut reader = Call::new(Operation::PacketRead).numbers(&[limit]);
    let mut place = 0;
    let mut begin = 0;
    for (index, packet) in packets.iter().enumerate() {
        reader.inputs[0] = joined[begin..].to_vec();
        c.expect(&mut reader, 0, |call| call.answer[0] == packet.len() as u64)?;
        begin += packet.len();
        writer.numbers = vec![room, limit, 0, id, sequence, 0, place];
        writer.lent = vec![0xCC; room as usize];
        c.expect(&mut writer, 0, |call| {
            call.lent[..call.answer[0] as usize] == **packet
        })?;
        place = writer.answer[1];
        if receives {
            receiver.inputs[0] = packet.to_vec();
            let last = index + 1 == packets.len();
            c.expect(&mut receiver, 0, |call| {
                call.answer[..3] == [u64::from(last), 0, id]
                    && call.answer[5] == 0
                    && call.reply == [0xCC; 6]
            })?;
        }
    }
    c.hold(
        place == reply.len() as u64,
        "all packets are there",
        &writer,
    )?;
    let given = !receives || receiver.lent.starts_with(&reply);
    c.hold(given, "the receiver gives the reply", &receiver)?;
    let mut reader = Call::new(Operation::EnvelopeRead).inputs(&[&reply]);
    c.expect(&mut reader, 0, |call| call.answer[1] == 1)
}
